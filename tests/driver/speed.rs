//! The Rust and ours on the same sheets: nanoseconds a sheet, and how many times faster ours is than the Rust's `compile_mir`
//! alone, and than the Rust from the same bytes, which is the work that ours does.

mod colliding;
mod library;
mod rows;
mod shapes;

use std::hint::black_box;
use std::process::ExitCode;
use std::time::{Duration, Instant};

use oracle::compile::Run;
use oracle::differences::Worked;
use oracle::sheet::Sheet;

use crate::library::compile;
use crate::rows::{collection, hard_shapes, sized, Row, AGAIN, COLLECTION, IN_A_SET, SETS, SIZES};
use crate::shapes::nested_calls;

const WORDS: usize = 16_384;
/// Each side is timed so often, in turns; the fastest turn counts, since others only add to a time.
const TURNS: usize = 15;
/// What no shape may pass, in times of the median sheet of its size, and growth where sheets or calls are four times as many.
const MEDIANS: f64 = 5.0;
/// And what no sheet may pass whose mixes were made to collide, as its name says.
const COLLIDING_MEDIANS: f64 = 12.0;
const COLLIDING: &str = "with mixes that end alike";
const GROWTH: f64 = 4.5;
const CALLS_GROWTH: f64 = 5.0;

/// The words lent to every call.
struct Lent {
    work: Vec<u32>,
    out: Vec<u32>,
}

/// Nanoseconds a sheet.
struct Times {
    /// `compile_mir` alone, its nodes made before.
    rust: f64,
    /// The bytes read, the nodes made, then `compile_mir`.
    rust_from_bytes: f64,
    /// The whole call: bytes read, words cleared before and after.
    ours: f64,
}

impl Times {
    fn ratio(&self) -> f64 {
        self.rust / self.ours
    }

    fn ratio_from_bytes(&self) -> f64 {
        self.rust_from_bytes / self.ours
    }
}

fn measure(files: &[Vec<u8>], lent: &mut Lent) -> Times {
    let mut best = [Duration::MAX; 3];
    for _ in 0..TURNS {
        let turn = [rust(files), rust_from_bytes(files), ours(files, lent)];
        for (kept, new) in best.iter_mut().zip(turn) {
            *kept = (*kept).min(new);
        }
    }
    let [rust, rust_from_bytes, ours] =
        best.map(|time| time.as_nanos() as f64 / files.len() as f64);
    Times { rust, rust_from_bytes, ours }
}

fn rust(files: &[Vec<u8>]) -> Duration {
    let sheets = files.iter().map(|file| Sheet::read(file).expect("a sheet"));
    let mut runs: Vec<Run> = sheets.map(|sheet| Run::new(&sheet, Worked::NONE)).collect();
    let start = Instant::now();
    for run in &mut runs {
        black_box(run.compile_mir());
    }
    start.elapsed()
}

fn rust_from_bytes(files: &[Vec<u8>]) -> Duration {
    let start = Instant::now();
    for file in files {
        let sheet = Sheet::read(file).expect("a sheet");
        black_box(Run::new(&sheet, Worked::NONE).compile_mir());
    }
    start.elapsed()
}

fn ours(files: &[Vec<u8>], lent: &mut Lent) -> Duration {
    let start = Instant::now();
    for file in files {
        black_box(compile(black_box(file), &mut lent.work, &mut lent.out));
    }
    start.elapsed()
}

/// What every call has to do whatever the sheet: clear the lent words.
fn floor(lent: &mut Lent) -> f64 {
    let clear = |lent: &mut Lent| {
        let start = Instant::now();
        for _ in 0..IN_A_SET {
            black_box(&mut lent.work).fill(0);
            black_box(&mut lent.out).fill(0);
        }
        start.elapsed().as_nanos() as f64 / IN_A_SET as f64
    };
    (0..TURNS).map(|_| clear(lent)).fold(f64::INFINITY, f64::min)
}

/// Ours on each sheet by itself, the middle one of their times.
fn median(files: &[Vec<u8>], lent: &mut Lent) -> f64 {
    let alone = |file: &Vec<u8>, lent: &mut Lent| {
        let turns = (0..TURNS).map(|_| ours(std::slice::from_ref(file), lent).as_nanos() as f64);
        turns.fold(f64::INFINITY, f64::min)
    };
    let mut times: Vec<f64> = files.iter().map(|file| alone(file, lent)).collect();
    times.sort_by(f64::total_cmp);
    times[times.len() / 2]
}

fn heading(first: &str) {
    println!(
        "{first:<44}{:>10}{:>12}{:>10}{:>8}{:>12}",
        "the Rust", "from bytes", "ours", "ratio", "from bytes"
    );
}

fn report(name: &str, times: &Times) {
    println!(
        "{name:<44}{:>10.0}{:>12.0}{:>10.0}{:>8.2}{:>12.2}",
        times.rust,
        times.rust_from_bytes,
        times.ours,
        times.ratio(),
        times.ratio_from_bytes()
    );
}

/// What the series of one set shows: the ratios at each size, the growth from 256 to 1,024 nodes, and the largest sheets.
struct Shown {
    ratios: Vec<f64>,
    growth: f64,
    largest: Vec<Vec<u8>>,
}

fn series(set: (bool, bool), lent: &mut Lent) -> Shown {
    let mut shown = Shown { ratios: Vec::new(), growth: 0.0, largest: Vec::new() };
    let mut before = 0.0;
    for nodes in SIZES {
        let row = sized(nodes, set);
        let times = measure(&row.files, lent);
        report(&row.name, &times);
        shown.ratios.push(times.ratio());
        shown.growth = times.ours / before;
        before = times.ours;
        shown.largest = row.files;
    }
    shown
}

/// What the shapes show: the least ratio, the longest of our times, and the longest where mixes were made to collide.
struct Shaped {
    least: f64,
    longest: f64,
    colliding: f64,
}

/// One line a shape.
fn table(rows: &[Row], lent: &mut Lent) -> Shaped {
    let mut shaped = Shaped { least: f64::INFINITY, longest: 0.0, colliding: 0.0 };
    for row in rows {
        let times = measure(&row.files, lent);
        report(&row.name, &times);
        shaped.least = shaped.least.min(times.ratio());
        let kept = match row.name.ends_with(COLLIDING) {
            true => &mut shaped.colliding,
            false => &mut shaped.longest,
        };
        *kept = kept.max(times.ours);
    }
    shaped
}

fn main() -> ExitCode {
    let mut lent = Lent { work: vec![0; WORDS], out: vec![0; WORDS] };
    heading("ns a sheet");
    let whole = measure(&collection(false), &mut lent);
    report(&format!("collection of {COLLECTION}, 10 to 300 nodes"), &whole);
    report(
        &format!("{COLLECTION} like these, with powers"),
        &measure(&collection(true), &mut lent),
    );
    let shown: Vec<Shown> = SETS.iter().map(|set| series(*set, &mut lent)).collect();
    let growth = shown.iter().map(|set| set.growth).fold(0.0, f64::max);
    let small = shown.iter().map(|set| set.ratios[0]).fold(f64::INFINITY, f64::min);
    let least = shown.iter().flat_map(|set| &set.ratios).copied().fold(f64::INFINITY, f64::min);
    println!();
    heading("shapes of about 1,024 nodes");
    let shaped = table(&hard_shapes(), &mut lent);
    let largest: Vec<Vec<u8>> = shown.into_iter().flat_map(|set| set.largest).collect();
    let middle = median(&largest, &mut lent);
    let calls =
        |statements, lent: &mut Lent| measure(&vec![nested_calls(statements); AGAIN], lent).ours;
    let calls_growth = calls(256, &mut lent) / calls(64, &mut lent);
    println!();
    println!(
        "clearing the lent words: {:.0} ns; the median sheet of 1,024 nodes: {middle:.0} ns",
        floor(&mut lent)
    );
    println!(
        "the slowest shape: {:.2} times that, {:.2} with mixes made to collide; growth from 192 to 768 calls: {calls_growth:.2}-fold",
        shaped.longest / middle,
        shaped.colliding / middle
    );
    println!("growth from 256 to 1,024 nodes: at most {growth:.2}-fold; 16 nodes: at least {small:.2} times as fast as the Rust");
    println!(
        "{:.2} times as fast as the Rust on the collection, {:.2} times from the same bytes; at least {:.2} times at any size or shape",
        whole.ratio(),
        whole.ratio_from_bytes(),
        least.min(shaped.least)
    );
    let long = shaped.longest > MEDIANS * middle || shaped.colliding > COLLIDING_MEDIANS * middle;
    let slow = least.min(shaped.least) <= 1.0 || long;
    ExitCode::from(u8::from(slow || growth > GROWTH || calls_growth > CALLS_GROWTH))
}
