//! The sheets that are timed, by rows: a collection, a series of sizes, hard shapes.

use oracle::differences::expected;
use oracle::generate::{generate, Kind};
use oracle::series::{accepted, Set};
use oracle::sheet::{Sheet, Tree};

use crate::shapes::{shapes, Shape};

const SEED: u64 = 1;
pub const COLLECTION: usize = 2_000;
const COLLECTION_NODES: std::ops::RangeInclusive<usize> = 10..=300;
pub const SIZES: [usize; 4] = [16, 64, 256, 1_024];
/// Sharing on or off, many repeats or few.
pub const SETS: [(bool, bool); 4] = [(true, false), (true, true), (false, false), (false, true)];
pub const IN_A_SET: usize = 200;
/// What `tests/slowest` found.
const SLOWEST: &[u8] = include_bytes!("../slowest.sheet");
/// A shape's one sheet is compiled so often in a turn.
pub const AGAIN: usize = 40;

pub struct Row {
    pub name: String,
    pub files: Vec<Vec<u8>>,
}

/// The first generated sheets of 10 to 300 nodes, with powers or without, that have a list.
pub fn collection(powers: bool) -> Vec<Vec<u8>> {
    let right = |sheet: &Sheet| {
        let has_power = sheet.count(Tree::is_power) > 0;
        has_power == powers && COLLECTION_NODES.contains(&sheet.nodes())
    };
    let fits = |file: &Vec<u8>| {
        Sheet::read(file).is_ok_and(|sheet| right(&sheet)) && expected(file).is_ok()
    };
    (0..).map(|number| generate(SEED, number, Kind::Valid)).filter(fits).take(COLLECTION).collect()
}

/// Sheets of exactly so many nodes.
pub fn sized(nodes: usize, (sharing, many_repeats): (bool, bool)) -> Row {
    let switch = if sharing { "on" } else { "off" };
    let repeats = if many_repeats { "many" } else { "few" };
    Row {
        name: format!("{nodes} nodes, sharing {switch}, {repeats} repeats"),
        files: accepted(SEED, Set { nodes, sharing, many_repeats }, IN_A_SET),
    }
}

/// One sheet a shape.
pub fn hard_shapes() -> Vec<Row> {
    let slowest = Shape { name: "the slowest that mutation found", file: SLOWEST.to_vec() };
    let row = |shape: Shape| Row { name: shape.name.to_string(), files: vec![shape.file; AGAIN] };
    shapes().into_iter().chain([slowest]).map(row).collect()
}
