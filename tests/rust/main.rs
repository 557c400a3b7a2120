//! A host in Rust: replays directed and random scripts through the exported function of the static
//! library and compares every answer and every byte with a model of document 01. Its last line says
//! whether all were as the model gives them; its status is 0 only then.

mod book;
mod buffers;
mod cases;
mod compare;
mod cuts;
mod directed;
mod erased;
mod faults;
mod model;
mod random;
mod refused;
mod script;
mod stop;

use std::os::unix::process::ExitStatusExt;
use std::process::{Command, ExitCode, Stdio};
use std::sync::atomic::{AtomicUsize, Ordering};
use std::sync::Mutex;
use std::time::{SystemTime, UNIX_EPOCH};

use buffers::{touch, Buffer, Edge, EDGES};
use cases::{Group, Job};
use compare::{Checker, Counts, Difference};
use directed::groups;
use faults::Fault;
use model::Rules;

const USAGE: &str = "usage: run-rust [--calls N] [--seed N]";
const THREADS: usize = 2;
/// A fault has to be found within this many random calls.
const CALLS_TO_FIND: u64 = 1_000_000;

struct Options {
    calls: u64,
    seed: u64,
}

fn main() -> ExitCode {
    let arguments: Vec<String> = std::env::args().skip(1).collect();
    if arguments.first().is_some_and(|first| first == "--touch") {
        return touch_and_tell(&arguments[1..]);
    }
    let Some(options) = options(&arguments) else {
        eprintln!("{USAGE}");
        return ExitCode::from(2);
    };
    match run(&options) {
        Ok(comparisons) => {
            println!("rust host: all {comparisons} comparisons are as document 01 gives them");
            ExitCode::SUCCESS
        }
        Err(text) => {
            println!("rust host: WRONG: {text}");
            ExitCode::FAILURE
        }
    }
}

fn options(arguments: &[String]) -> Option<Options> {
    let now = SystemTime::now().duration_since(UNIX_EPOCH).map_or(1, |time| time.as_nanos() as u64);
    let mut options = Options { calls: 1_000_000, seed: now % 1_000_000_000_000 };
    for pair in arguments.chunks(2) {
        let number = pair.get(1)?.parse().ok()?;
        match pair[0].as_str() {
            "--calls" => options.calls = number,
            "--seed" => options.seed = number,
            _ => return None,
        }
    }
    Some(options)
}

/// The whole run; hands back how many comparisons were made.
fn run(options: &Options) -> Result<u64, String> {
    println!("seed {}, random calls {}", options.seed, options.calls);
    println!("every case is replayed right before unmapped pages, and again right behind them");
    guards_work()?;
    stop::tell_signals();
    let mut directed = groups();
    let mut comparisons = erased::run()?;
    for group in &directed {
        comparisons += run_group(group)?.comparisons;
    }
    let name = format!("random, seed {}", options.seed);
    let jobs = random::jobs(options.seed, options.calls);
    comparisons += run_group(&Group { name, jobs })?.comparisons;
    // Without the group of P = 4,096: a fault has to be found without it.
    directed.pop();
    let random = random::jobs(options.seed, CALLS_TO_FIND);
    for (fault, part, text) in faults::ALL {
        let found = found_by(fault, &directed, &random)?;
        println!("planted in the model's {part}: {text}; {found}");
    }
    Ok(comparisons)
}

/// Runs the jobs of a group and prints what was compared.
fn run_group(group: &Group) -> Result<Counts, String> {
    let next = AtomicUsize::new(0);
    let counts = Mutex::new(Counts::default());
    let first: Mutex<Option<Difference>> = Mutex::new(None);
    let work = || {
        let mut checker = Checker::new(Rules { fault: None });
        while let Some(job) = group.jobs.get(next.fetch_add(1, Ordering::Relaxed)) {
            if let Err(difference) = job(&mut checker) {
                next.store(group.jobs.len(), Ordering::Relaxed);
                first.lock().unwrap().get_or_insert(difference);
            }
        }
        counts.lock().unwrap().add(&checker.counts);
    };
    std::thread::scope(|scope| (0..THREADS).for_each(|_| drop(scope.spawn(work))));
    if let Some(difference) = first.into_inner().unwrap() {
        return Err(format!("{}: {}: {}", group.name, difference.case, difference.text));
    }
    let counts = counts.into_inner().unwrap();
    println!(
        "{}: {} replays, {} calls, {} bytes of answers, {} bytes in all compared",
        group.name, counts.replays, counts.calls, counts.answers, counts.bytes
    );
    Ok(counts)
}

/// By which directed case and after how many random calls a planted fault is found; an error if one
/// of the two doesn't find it.
fn found_by(fault: Fault, directed: &[Group], random: &[Job]) -> Result<String, String> {
    let mut checker = Checker::new(Rules { fault: Some(fault) });
    let found = directed.iter().find_map(|group| {
        group.jobs.iter().find_map(|job| job(&mut checker).err().map(|found| (group, found)))
    });
    let Some((group, found)) = found else {
        return Err(format!("the planted fault {fault:?} is not found by a directed case"));
    };
    checker.counts = Counts::default();
    if !random.iter().any(|job| job(&mut checker).is_err()) {
        return Err(format!("the planted fault {fault:?} is not found by random calls"));
    }
    let calls = checker.counts.calls / EDGES.len() as u64;
    Ok(format!("found by: {}: {}; and by {calls} random calls", group.name, found.case))
}

/// The four buffers, as a child names them.
const BUFFERS: [&str; 4] = ["left", "right", "script", "out"];

/// Sees that a child that touches one byte past either end of a buffer, or writes the script, dies
/// by the signal for it, and that one that touches the last byte inside doesn't.
fn guards_work() -> Result<(), String> {
    let mut deaths = 0;
    for name in BUFFERS {
        for length in ["0", "8", "4096", "4097", "100000"] {
            for edge in ["behind", "before"] {
                expect_touch(&[name, length, edge, "outside", "read"], Some(11))?;
                expect_touch(&[name, length, edge, "outside", "write"], Some(11))?;
                deaths += 2;
                if length == "0" {
                    continue;
                }
                expect_touch(&[name, length, edge, "inside", "read"], None)?;
                let signal = if name == "script" { Some(11) } else { None };
                expect_touch(&[name, length, edge, "inside", "write"], signal)?;
            }
        }
    }
    println!(
        "guards: {deaths} children that touch one byte past either end of a buffer die by SIGSEGV"
    );
    println!("guards: children that touch the last byte inside live, but for writes to the script");
    Ok(())
}

fn expect_touch(what: &[&str], signal: Option<i32>) -> Result<(), String> {
    let host = std::env::current_exe().map_err(|error| format!("its own file: {error}"))?;
    let mut child = Command::new(host);
    child.arg("--touch").args(what).stdout(Stdio::null()).stderr(Stdio::null());
    let status = child.status().map_err(|error| format!("a child: {error}"))?;
    let code = if signal.is_none() { Some(0) } else { None };
    if status.signal() != signal || status.code() != code {
        return Err(format!("guards: touching {what:?} ended with {status}"));
    }
    Ok(())
}

/// What a child does: touches the byte that its arguments name.
fn touch_and_tell(what: &[String]) -> ExitCode {
    let mut buffer = match what[0].as_str() {
        "script" => Buffer::read_only(),
        _ => Buffer::writable(),
    };
    let edge = if what[2] == "behind" { Edge::Behind } else { Edge::Before };
    let length = what[1].parse().unwrap_or(0);
    let byte = touch(&mut buffer, length, edge, what[3] == "inside", what[4] == "write");
    println!("{byte:02X}");
    ExitCode::SUCCESS
}
