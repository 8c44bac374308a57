//! Another build of the library and this one on the same sheets, in one process and in turns: how much longer ours takes.

mod colliding;
mod library;
mod other;
mod rows;
mod shapes;

use std::hint::black_box;
use std::process::ExitCode;
use std::time::Instant;

use crate::library::{compile, Numbers};
use crate::rows::{collection, hard_shapes, sized, Row, SETS, SIZES};

const WORDS: usize = 16_384;
const TURNS: usize = 40;
/// A row is timed in so many parts, so that what disturbs the machine hits few of them.
const PARTS: usize = 5;
/// Two runs of this differed by less on 28 of 32 rows.
const NOISE: f64 = 0.02;

type Call = fn(&[u8], &mut [u32], &mut [u32]) -> Numbers;

/// The words lent to every call.
struct Lent {
    work: Vec<u32>,
    out: Vec<u32>,
}

/// Nanoseconds a sheet.
fn time(call: Call, files: &[&Vec<u8>], lent: &mut Lent) -> f64 {
    let start = Instant::now();
    for file in files {
        black_box(call(black_box(file), &mut lent.work, &mut lent.out));
    }
    start.elapsed().as_nanos() as f64 / files.len() as f64
}

fn middle(mut numbers: Vec<f64>) -> f64 {
    numbers.sort_by(f64::total_cmp);
    numbers[numbers.len() / 2]
}

/// One line a row, of the sheets that both answer alike; gives the change, the middle one of all parts and turns.
fn versus(row: &Row, lent: &mut Lent) -> Option<f64> {
    let alike = |file: &&Vec<u8>| {
        let theirs = other::compile(file, &mut lent.work, &mut lent.out);
        theirs == compile(file, &mut lent.work, &mut lent.out)
    };
    let files: Vec<&Vec<u8>> = row.files.iter().filter(alike).collect();
    if files.is_empty() {
        return None;
    }
    let (mut changes, mut best) = (Vec::new(), [f64::INFINITY; 2]);
    for turn in 0..TURNS {
        for part in files.chunks(files.len().div_ceil(PARTS)) {
            let calls: [Call; 2] = [other::compile, compile];
            let mut times = [0.0; 2];
            for which in [turn % 2, 1 - turn % 2] {
                times[which] = time(calls[which], part, lent);
                best[which] = best[which].min(times[which]);
            }
            changes.push(times[1] / times[0] - 1.0);
        }
    }
    let change = middle(changes);
    println!("{:<46}{:>10.0}{:>10.0}{:>+9.1}%", row.name, best[0], best[1], 100.0 * change);
    Some(change)
}

fn main() -> ExitCode {
    let mut lent = Lent { work: vec![0; WORDS], out: vec![0; WORDS] };
    println!(
        "{:<46}{:>10}{:>10}{:>10}",
        "ns a sheet, the fastest part", "the other", "ours", "change"
    );
    let whole = Row { name: "collection, 10 to 300 nodes".into(), files: collection(false) };
    let series = SETS.into_iter().flat_map(|set| SIZES.map(|nodes| sized(nodes, set)));
    let rows = [whole].into_iter().chain(series).chain(hard_shapes());
    let changes: Vec<f64> = rows.filter_map(|row| versus(&row, &mut lent)).collect();
    let count = |test: fn(f64) -> bool| changes.iter().filter(|change| test(**change)).count();
    let slower = count(|change| change > NOISE);
    println!(
        "{} rows: {} faster, {slower} slower, by more than {:.0}%; {:+.1}% in the mean",
        changes.len(),
        count(|change| change < -NOISE),
        100.0 * NOISE,
        100.0 * changes.iter().sum::<f64>() / changes.len() as f64
    );
    ExitCode::from(u8::from(slower > 0))
}
