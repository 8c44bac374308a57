//! Sheets of a given size, for measuring: exactly so many nodes, few or many repeats, no powers.

use crate::differences::expected;
use crate::generate::{place, Random};
use crate::grow::{Grower, One, Palette, Two};
use crate::sheet::{Place, Sheet, Statement, Tree, MEMORY, PARAMETER, STACK, STATEMENT_LIMIT};

/// What all sheets of one set have in common.
#[derive(Clone, Copy)]
pub struct Set {
    pub nodes: usize,
    pub sharing: bool,
    pub many_repeats: bool,
}

const FIRST: u16 = 100;
/// A statement's room.
const ROOM: (usize, usize) = (5, 60);
const CONSTANT_PERCENT: usize = 25;

/// The first sheets of a set that have a list.
pub fn accepted(seed: u64, set: Set, count: usize) -> Vec<Vec<u8>> {
    (0..)
        .map(|number| sized(seed, number, set))
        .filter(|bytes| expected(bytes).is_ok())
        .take(count)
        .collect()
}

/// A sheet of exactly the set's nodes.
fn sized(seed: u64, number: u64, set: Set) -> Vec<u8> {
    let mut random = Random::new(seed, number ^ (set.nodes as u64) << 40);
    let scratch = random.within(4, 16) as u8;
    let fused = random.within(0, 1) as u8;
    let flags = u8::from(set.sharing) + 2 * fused;
    let palette = palette(&mut random, set.many_repeats);
    let statements = statements(&mut Grower::new(&mut random, palette, scratch.into()), set.nodes);
    let sheet = Sheet { scratch, flags, step: 1, first: FIRST, statements };
    sheet.write(&vec![Vec::new(); sheet.statements.len() + 1])
}

/// Statements until the nodes are used up; the last one takes what is left where no more may follow.
fn statements(grower: &mut Grower, nodes: usize) -> Vec<Statement> {
    let mut statements = Vec::new();
    let mut left = nodes;
    while left > 0 {
        let room = grower.random.within(ROOM.0, ROOM.1).min(left);
        let last = statements.len() + 1 == STATEMENT_LIMIT;
        let tree = if last { grower.exact(left) } else { grower.statement(room) };
        left -= tree.weight();
        let place = Place { kind: MEMORY, index: 20_000 + statements.len() as u16 };
        statements.push(Statement { place, tree });
    }
    statements
}

fn palette(random: &mut Random, many_repeats: bool) -> Palette {
    let leaves = if many_repeats { 6 } else { 60 };
    Palette {
        leaves: (0..leaves).map(|_| leaf(random)).collect(),
        conditions: (0..3).map(|_| place(random, FIRST, &[STACK, MEMORY])).collect(),
        functions: vec![0, 7, 255],
        unary: (1..=21).map(One::Unary).collect(),
        binary: (1..=15).map(Two::Binary).collect(),
        powers: Vec::new(),
        repeat_percent: if many_repeats { 60 } else { 0 },
        forms: [20, 55, 8, 7, 10],
    }
}

fn leaf(random: &mut Random) -> Tree {
    match random.percent(CONSTANT_PERCENT) {
        true => Tree::Constant(random.within(0, 99) as u16),
        false => Tree::Variable(place(random, FIRST, &[STACK, MEMORY, PARAMETER])),
    }
}
