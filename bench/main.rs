//! The benchmark: the proved library beside plain Rust (plain.rs) and plain C (plain.c), in one run.
//!
//! All three are called through the same signatures, by pointers that the compiler can't see through,
//! on the same buffers. First they are held to the same answers and the same page bytes. Then each row
//! is measured in rounds, the three one after another in every round, and the least time of all
//! rounds counts. Every buffer has been used before: all times are with warm caches. The erased test has
//! a table of its own, with plain Rust in more than one way.
//!
//! Its arguments: the size of the machine code of the exported library, in bytes; then, if wanted,
//! `quick` for fewer rounds, which measures badly and judges no bar; `bar N` for as few, judged by N in
//! the place of every bar; or `check` to compare the answers and stop. Its status is 1 where answers
//! differ or a bar is missed.

mod calls;
mod erased;
mod plain;
mod rows;
mod same;
mod stack;

use calls::Library;
use rows::{Row, Timed};

const PAGES: [usize; 3] = [64, 512, 4096];

fn main() {
    let arguments: Vec<String> = std::env::args().skip(1).collect();
    let has = |wanted: &str| arguments.iter().any(|word| word == wanted);
    let quick = has("quick");
    let rounds = if quick || has("bar") { 5 } else { 1000 };
    let libraries = calls::libraries();
    let tests = calls::erased_tests();

    match same::compare(&libraries).and_then(|count| Ok(count + erased::compare(&tests)?)) {
        Ok(count) => println!("benchmark: the three answer alike, pages too: {count} comparisons"),
        Err(difference) => {
            println!("benchmark: the three DIFFER: {difference}");
            std::process::exit(1);
        }
    }

    if has("check") {
        return;
    }
    let bar = has("bar").then(|| arguments.last().and_then(|word| word.parse().ok()).expect("a bar"));
    println!("\nNanoseconds, least of {rounds} runs, warm caches; the ratio is to the faster of the two\n");
    println!("| What | P | library | plain Rust | plain C | ratio | bar | |");
    println!("|---|---|---|---|---|---|---|---|");
    let mut missed = 0;
    for mut row in rows::rows(&PAGES) {
        row.bar = row.bar.map(|its_own| bar.unwrap_or(its_own));
        missed += print(&row, &measured(&row, &libraries, rounds), !quick);
    }
    println!();
    erased::print_heading();
    for mut row in erased::rows() {
        row.bars = row.bars.map(|its_own| its_own.map(|its_own| bar.unwrap_or(its_own)));
        missed += erased::print(&row, &tests, rounds, !quick);
    }
    println!();
    print_sizes(arguments.first().and_then(|word| word.parse().ok()));
    println!();
    match missed {
        _ if quick => println!("benchmark: quick, too few rounds to judge a bar"),
        0 => println!("benchmark: every bar is met"),
        n => {
            println!("benchmark: bars missed: {n}");
            std::process::exit(1);
        }
    }
}

/// The least time of a call for each library, in nanoseconds.
fn measured(row: &Row, libraries: &[Library; 3], rounds: usize) -> [f64; 3] {
    let mut least = [f64::INFINITY; 3];
    let mut timed: Vec<Timed> = libraries.iter().map(|library| Timed::new(row, *library)).collect();
    for _ in 0..rounds {
        for (best, run) in least.iter_mut().zip(&mut timed) {
            *best = best.min(run.nanoseconds());
        }
    }
    least
}

/// Prints a row; gives 1 where its bar is judged and missed.
fn print(row: &Row, [library, rust, c]: &[f64; 3], judged: bool) -> u32 {
    let ratio = library / rust.min(*c);
    let (bar, verdict) = match row.bar {
        None => (String::new(), ""),
        Some(bar) if !judged => (format!("{bar:.1}"), ""),
        Some(bar) if ratio <= bar => (format!("{bar:.1}"), "met"),
        Some(bar) => (format!("{bar:.1}"), "MISSED"),
    };
    if row.alone {
        println!("| {} | {} | | {rust:.1} | | | | |", row.what, row.p);
    } else {
        println!(
            "| {} | {} | {library:.1} | {rust:.1} | {c:.1} | {ratio:.2} | {bar} | {verdict} |",
            row.what, row.p
        );
    }
    (verdict == "MISSED") as u32
}

fn print_sizes(text: Option<usize>) {
    println!("| Size | bytes |");
    println!("|---|---|");
    if let Some(bytes) = text {
        println!("| machine code of the exported library, .text | {bytes} |");
    }
    for (what, bytes) in stack::depths() {
        println!("| {what} | {bytes} |");
    }
}
