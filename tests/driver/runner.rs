//! The runner's program: random sheets, all small ones and all powers through the Rust and through the library.

mod call;
mod exhaustive;
mod lent;
mod library;
mod powers;
mod tally;
mod trial;

use std::process::ExitCode;
use std::sync::atomic::{AtomicU64, Ordering};
use std::thread;
use std::time::Instant;

use oracle::generate::{generate, Kind, Random};

use crate::call::Memory;
use crate::exhaustive::Exhaustive;
use crate::tally::{commas, Tally};
use crate::trial::{try_sheet, Sheet};

const COUNT: u64 = 2_000_000;
const SEED: u64 = 1;
/// How many of twenty sheets are of each kind.
const MIX: [(Kind, &str, u64); 5] = [
    (Kind::Valid, "valid", 7),
    (Kind::Small, "small", 7),
    (Kind::Damaged, "damaged", 3),
    (Kind::Hostile, "hostile", 2),
    (Kind::Large, "large", 1),
];
const MIXED: u64 = 20;
/// How many sheets a thread takes at a time.
const TAKEN: u64 = 100;
/// Keeps the choice of lent sizes apart from the making of sheets.
const LENDING_SEED: u64 = 0x6c65_6e64;

fn main() -> ExitCode {
    let words: Vec<String> = std::env::args().skip(1).collect();
    let Some((count, seed)) = arguments(&words) else {
        eprintln!("usage: runner [COUNT [SEED]] | runner --powers");
        return ExitCode::FAILURE;
    };
    let began = Instant::now();
    let mut runs = Vec::new();
    if let Some(count) = count {
        runs.push(("random", run(count, seed, &|number| random_sheet(seed, number))));
        runs.push(("exhaustive", run_all(seed, "exhaustive", &Exhaustive::without_powers())));
    }
    runs.push(("powers", run_all(seed, "power", &Exhaustive::with_powers())));
    summary(seed, &runs, began.elapsed().as_secs())
}

/// How many random sheets, none where only powers are asked for, and the seed.
fn arguments(words: &[String]) -> Option<(Option<u64>, u64)> {
    if words == ["--powers"] {
        return Some((None, SEED));
    }
    let numbers: Option<Vec<u64>> = words.iter().map(|word| word.parse().ok()).collect();
    match numbers?[..] {
        [] => Some((Some(COUNT), SEED)),
        [count] => Some((Some(count), SEED)),
        [count, seed] => Some((Some(count), seed)),
        _ => None,
    }
}

fn run_all(seed: u64, name: &str, all: &Exhaustive) -> Tally {
    run(all.count(), seed, &|number| Sheet {
        name: format!("{name} sheet {number}"),
        file: all.file(number),
    })
}

/// Tries the sheets numbered 0 to count - 1, on all processors.
fn run(count: u64, seed: u64, sheet: &(dyn Fn(u64) -> Sheet + Sync)) -> Tally {
    let next = AtomicU64::new(0);
    let threads = thread::available_parallelism().map_or(1, |count| count.get());
    let mut sum = Tally::default();
    thread::scope(|scope| {
        let workers: Vec<_> =
            (0..threads).map(|_| scope.spawn(|| work(&next, count, seed, sheet))).collect();
        for worker in workers {
            sum.add(worker.join().expect("a thread that ends"));
        }
    });
    sum
}

fn work(next: &AtomicU64, count: u64, seed: u64, sheet: &dyn Fn(u64) -> Sheet) -> Tally {
    let (mut memory, mut tally) = (Memory::new(), Tally::default());
    loop {
        let from = next.fetch_add(TAKEN, Ordering::Relaxed);
        if from >= count {
            return tally;
        }
        for number in from..count.min(from + TAKEN) {
            let mut random = Random::new(seed ^ LENDING_SEED, number);
            try_sheet(&mut memory, &mut tally, &mut random, &sheet(number));
        }
    }
}

/// Sheet `number` of the mix; within its kind it has the number that `oracle generate` gives it.
fn random_sheet(seed: u64, number: u64) -> Sheet {
    let mut at = number % MIXED;
    for (kind, name, share) in MIX {
        if at < share {
            let within = number / MIXED * share + at;
            let name = format!("{name} sheet {within} of seed {seed}");
            return Sheet { name, file: generate(seed, within, kind) };
        }
        at -= share;
    }
    unreachable!("a place within the mix")
}

fn summary(seed: u64, runs: &[(&str, Tally)], seconds: u64) -> ExitCode {
    for report in runs.iter().flat_map(|(_, tally)| &tally.reports) {
        println!("{report}");
    }
    let shares: Vec<String> =
        MIX.iter().map(|(_, name, share)| format!("{}% {name}", 100 * share / MIXED)).collect();
    println!("Random sheets, seed {seed}: {}", shares.join(", "));
    tally::print(runs);
    let sheets = |(name, tally): &(&str, Tally)| match *name {
        "random" => format!(
            "{} random sheets (seed {seed}; {} with a power)",
            commas(tally.sheets),
            commas(tally.with_power)
        ),
        "powers" => format!("{} of all powers", commas(tally.sheets)),
        _ => format!("{} {name}", commas(tally.sheets)),
    };
    let unexplained = runs.iter().map(|(_, tally)| tally.unexplained).sum();
    println!(
        "{}, {} calls: {} unexplained, in {seconds} s",
        runs.iter().map(sheets).collect::<Vec<String>>().join(", "),
        commas(runs.iter().map(|(_, tally)| tally.calls).sum()),
        commas(unexplained),
    );
    if unexplained == 0 {
        ExitCode::SUCCESS
    } else {
        ExitCode::FAILURE
    }
}
