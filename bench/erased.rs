//! The erased test's own table: the library beside plain Rust that goes byte by byte, beside the quickest
//! plain Rust and beside plain C.

use crate::calls::ErasedTest;
use crate::rows::{NANOSECONDS_A_RUN, Placed};
use std::hint::black_box;
use std::time::Instant;

const LENGTHS: [usize; 7] = [64, 512, 4096, 7, 9, 63, 4095];

pub struct Row {
    what: &'static str,
    length: usize,
    /// The byte that isn't FF, if any.
    used: Option<usize>,
    /// What the ratio to byte by byte, and that to the quickest plain version, may be at most.
    pub bars: [Option<f64>; 2],
}

pub fn rows() -> Vec<Row> {
    LENGTHS.iter().flat_map(|&length| rows_at(length)).collect()
}

fn rows_at(length: usize) -> [Row; 5] {
    let row = |what, used, bars| Row { what, length, used, bars };
    let erased = if length == 4096 { [Some(0.05), Some(1.2)] } else { [None; 2] };
    [
        row("erased", None, erased),
        row("used in the first byte", Some(0), [None; 2]),
        row("used at byte 4", Some(4), [Some(1.5), None]),
        row("used in the middle", Some(length / 2), [None; 2]),
        row("used in the last byte", Some(length - 1), [None; 2]),
    ]
}

/// Compares the tests at every length up to 80 and those of the table, with each byte used in turn; gives
/// the number of comparisons.
pub fn compare(tests: &[ErasedTest]) -> Result<usize, String> {
    let mut count = 0;
    for length in (0..=80).chain(LENGTHS) {
        let mut page = vec![0xFF; length];
        for used in (0..length).map(Some).chain([None]) {
            if let Some(at) = used {
                page[at] = 0x7F;
            }
            for test in tests {
                if test.answer(&page) != used.is_none() {
                    return Err(format!("erased, {}: length {length}, used {used:?}", test.name));
                }
            }
            if let Some(at) = used {
                page[at] = 0xFF;
            }
            count += 1;
        }
    }
    Ok(count)
}

/// A page, and how often a run asks whether it is erased.
struct Timed {
    page: Placed,
    calls: usize,
}

impl Timed {
    /// Makes the page and finds how many calls a run takes; that warms everything too.
    fn new(row: &Row, test: &ErasedTest) -> Timed {
        let mut content = vec![0xFF; row.length];
        if let Some(at) = row.used {
            content[at] = 0;
        }
        let mut timed = Timed { page: Placed::new(&content, 512), calls: 1 };
        while timed.run(test) < NANOSECONDS_A_RUN {
            timed.calls *= 2;
        }
        timed
    }

    fn run(&self, test: &ErasedTest) -> u128 {
        let clock = Instant::now();
        for _ in 0..self.calls {
            black_box(test.answer(black_box(&self.page)));
        }
        clock.elapsed().as_nanos()
    }
}

/// The least time of a call of each test, in nanoseconds.
fn measured(row: &Row, tests: &[ErasedTest; 6], rounds: usize) -> [f64; 6] {
    let timed = tests.map(|test| Timed::new(row, &test));
    let mut least = [f64::INFINITY; 6];
    for _ in 0..rounds {
        for ((best, test), its_own) in least.iter_mut().zip(tests).zip(&timed) {
            *best = best.min(its_own.run(test) as f64 / its_own.calls as f64);
        }
    }
    least
}

pub fn print_heading() {
    println!(
        "| Erased test, page | bytes | library | Rust, byte by byte | quickest Rust | plain C | \
         ratio to byte by byte | bar | ratio to the quickest | bar | |"
    );
    println!("|---|---|---|---|---|---|---|---|---|---|---|");
}

/// Measures and prints a row; gives how many of its bars are judged and missed.
pub fn print(row: &Row, tests: &[ErasedTest; 6], rounds: usize, judged: bool) -> u32 {
    let [library, bytes, c, eights @ ..] = measured(row, tests, rounds);
    let rust = eights.into_iter().fold(bytes, f64::min);
    let ratios = [library / bytes, library / rust.min(c)];
    let missed = (0..2).filter(|&i| row.bars[i].is_some_and(|bar| ratios[i] > bar)).count() as u32;
    let verdict = match missed {
        _ if !judged || row.bars == [None; 2] => "",
        0 => "met",
        _ => "MISSED",
    };
    let bars = row.bars.map(|bar| bar.map_or(String::new(), |bar| format!("{bar:.2}")));
    println!(
        "| {} | {} | {library:.1} | {bytes:.1} | {rust:.1} | {c:.1} | {:.2} | {} | {:.2} | {} | {verdict} |",
        row.what, row.length, ratios[0], bars[0], ratios[1], bars[1]
    );
    if judged { missed } else { 0 }
}
