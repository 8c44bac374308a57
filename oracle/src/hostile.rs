//! Hostile files: noise, broken tables, and sheets at or one past each limit.

use crate::damage::{set_word, word};
use crate::extreme::{Parts, LEANS};
use crate::generate::{valid, Kind, Random};
use crate::sheet::{Place, Sheet, Statement, Tree, FILE_LIMIT, FLAGS, MEMORY};

#[derive(Clone, Copy)]
enum Form {
    /// A header in range, then random bytes.
    Noise,
    /// A header and pairs in range, then statements of small bytes.
    Soup,
    /// Pairs that overlap, wrap, or end at and past the file's end.
    Pairs,
    /// 63 to 66 levels.
    Deep,
    /// 1,024 or 1,025 nodes.
    Nodes,
    /// 255 to 257 statements.
    Statements,
    /// One tree over and over.
    Same,
    /// Temporaries up to and past stack index 65,535.
    LastIndex,
    /// Calls in calls.
    Calls,
    /// Powers in powers: lists around the end of the output.
    Powers,
    /// 16,383 to 16,385 bytes.
    FileSize,
    /// All bytes equal.
    Equal,
    /// At most 16 bytes.
    Short,
}

const FORMS: [(usize, Form); 13] = [
    (10, Form::Noise),
    (10, Form::Soup),
    (14, Form::Pairs),
    (14, Form::Deep),
    (9, Form::Nodes),
    (8, Form::Statements),
    (8, Form::Same),
    (9, Form::LastIndex),
    (9, Form::Calls),
    (9, Form::Powers),
    (4, Form::FileSize),
    (3, Form::Equal),
    (2, Form::Short),
];

pub fn hostile(random: &mut Random) -> Vec<u8> {
    match random.weighted(&FORMS) {
        Form::Noise => noise(random),
        Form::Soup => soup(random),
        Form::Pairs => pairs(random),
        Form::Deep => written(deep(random)),
        Form::Nodes => written(nodes(random)),
        Form::Statements => written(statements(random)),
        Form::Same => written(same(random)),
        Form::LastIndex => written(last_index(random)),
        Form::Calls => written(calls(random)),
        Form::Powers => written(powers(random)),
        Form::FileSize => file_size(random),
        Form::Equal => equal(random),
        Form::Short => short(random),
    }
}

fn written(sheet: Sheet) -> Vec<u8> {
    sheet.write(&vec![Vec::new(); sheet.statements.len() + 1])
}

/// A header in range, most often with few scratch registers.
fn empty(random: &mut Random) -> Sheet {
    Sheet {
        scratch: random.pick(&[2, 2, 2, 2, 3, 3, 4, 5, 8, 32]),
        flags: random.within(0, FLAGS.into()) as u8,
        step: random.pick(&[1, 2, 7, 8]),
        first: random.pick(&[0, 1, 2, 10, 10, 10, 32_768, 65_534, 65_535]),
        statements: Vec::new(),
    }
}

fn add(sheet: &mut Sheet, tree: Tree) {
    let index = sheet.statements.len() as u16;
    sheet.statements.push(Statement { place: Place { kind: MEMORY, index }, tree });
}

fn noise(random: &mut Random) -> Vec<u8> {
    let mut bytes = written(empty(random));
    let count = random.pick(&[0, 1, 1, 2, 3, 255, 256]);
    set_word(&mut bytes, 4, count);
    let length = random.ranged(&[(60, (0, 60)), (30, (61, 2_000)), (10, (2_001, FILE_LIMIT - 8))]);
    bytes.extend(random.bytes(length));
    bytes
}

/// Small bytes make tags, codes and kinds that exist, so the reader gets far before it stops.
fn soup(random: &mut Random) -> Vec<u8> {
    let mut bytes = written(empty(random));
    let count = random.within(1, 6);
    set_word(&mut bytes, 4, count as u16);
    let lengths: Vec<usize> =
        (0..count).map(|_| random.ranged(&[(80, (0, 20)), (20, (21, 300))])).collect();
    let mut offset = 8 + 4 * count;
    for length in &lengths {
        bytes.extend((offset as u16).to_le_bytes());
        bytes.extend((*length as u16).to_le_bytes());
        offset += length;
    }
    for length in lengths {
        let top = random.pick(&[2, 4, 7, 9, 10]);
        let statement = (0..length).map(|at| match at {
            0 => random.within(1, 2) as u8,
            2 | 5 | 6 => 0,
            _ => random.within(0, top) as u8,
        });
        bytes.extend(statement.collect::<Vec<u8>>());
    }
    bytes
}

fn pairs(random: &mut Random) -> Vec<u8> {
    let mut sheet = valid(random, Kind::Small);
    let tree = sheet.statements[0].tree.clone();
    add(&mut sheet, tree);
    let mut bytes = written(sheet);
    for _ in 0..random.within(1, 2) {
        break_pair(random, &mut bytes);
    }
    bytes
}

/// Sets one pair so that it lies at or just past a limit.
fn break_pair(random: &mut Random, bytes: &mut Vec<u8>) {
    let count = word(bytes, 4) as usize;
    let table = 8 + 4 * count;
    if bytes.len() < table {
        return;
    }
    let at = 8 + 4 * random.within(0, count - 1);
    let before = if at == 8 { at } else { at - 4 };
    let (offset, length) = (word(bytes, at), word(bytes, at + 2));
    let size = bytes.len() as u16;
    let pair = match random.within(0, 12) {
        0 => (65_535, 65_535),
        1 => (offset, 65_535),
        2 => (offset, size.wrapping_sub(offset)),
        3 => (offset, size.wrapping_sub(offset).wrapping_add(1)),
        // The end is 65,536: 0 in 16 bits.
        4 => (offset, 0u16.wrapping_sub(offset)),
        5 => (word(bytes, before), word(bytes, before + 2)),
        6 => (offset.wrapping_sub(1), length.wrapping_add(1)),
        7 => (random.pick(&[0, 1, 7, 8, table as u16 - 1, table as u16]), length),
        8 => (size, random.pick(&[0, 1])),
        9 => (size + 1, 0),
        10 => (offset, random.pick(&[0, 1, 2, 3])),
        11 => (0u16.wrapping_sub(length), length),
        _ => return bytes.truncate(random.pick(&[table - 1, table, table + 1])),
    };
    set_word(bytes, at, pair.0);
    set_word(bytes, at + 2, pair.1);
}

fn deep(random: &mut Random) -> Sheet {
    let mut sheet = empty(random);
    let parts = Parts::any(random, sheet.first);
    for _ in 0..random.within(1, 3) {
        let depth = random.pick(&[63, 64, 64, 64, 65, 66]);
        let leans = [random.pick(&LEANS), random.pick(&LEANS)];
        let tree = match random.percent(40) {
            true => parts.fork(random, depth, leans),
            false => parts.chain(random, depth, leans[0]),
        };
        add(&mut sheet, tree);
    }
    sheet
}

/// The nodes are one tree, or stand in 2 to 256 statements.
fn nodes(random: &mut Random) -> Sheet {
    let mut sheet = empty(random);
    let parts = Parts::any(random, sheet.first);
    let mut left: usize = random.pick(&[1_023, 1_024, 1_024, 1_025]);
    let most = random.pick(&[4, 5, 16, 64, 127, 512, 1_025]);
    while left > 0 {
        let others = 255 - sheet.statements.len();
        let room = match others {
            0 => left,
            _ => random.within(1, most).max(left.div_ceil(others + 1)).min(left),
        };
        let tree = parts.exact(random, room);
        add(&mut sheet, tree);
        left -= room;
    }
    sheet
}

fn statements(random: &mut Random) -> Sheet {
    let mut sheet = empty(random);
    let parts = Parts::any(random, sheet.first);
    let most = random.pick(&[1, 2, 3, 4]);
    for _ in 0..random.pick(&[255, 256, 256, 256, 257]) {
        let room = random.within(1, most);
        let tree = parts.exact(random, room);
        add(&mut sheet, tree);
    }
    sheet
}

fn same(random: &mut Random) -> Sheet {
    let mut sheet = empty(random);
    let parts = Parts::any(random, sheet.first);
    let tree = match random.within(0, 2) {
        0 => {
            let height = random.within(2, 10);
            parts.full(random, height)
        }
        1 => {
            let (depth, lean) = (random.within(2, 64), random.pick(&LEANS));
            parts.chain(random, depth, lean)
        }
        _ => {
            let room = random.within(4, 60);
            parts.exact(random, room)
        }
    };
    let most = (1_024 / tree.weight()).min(256);
    for _ in 0..random.within(1, most) {
        add(&mut sheet, tree.clone());
    }
    sheet
}

/// So many calls that the last temporary stands at, before or past the last index.
fn last_index(random: &mut Random) -> Sheet {
    let mut sheet = empty(random);
    let temporaries = random.pick(&[1, 1, 2, 3, 4, 8, 30, 60]);
    let exact = 65_536 - sheet.step as usize * temporaries;
    sheet.first = (exact - 1 + random.within(0, 2)).min(65_535) as u16;
    let parts = Parts::calls(random, sheet.first);
    let (depth, lean) = (temporaries + 1, random.pick(&LEANS));
    let tree = parts.chain(random, depth, lean);
    add(&mut sheet, tree);
    if random.percent(30) {
        let again = sheet.statements[0].tree.clone();
        add(&mut sheet, again);
    }
    sheet
}

/// Full trees of calls, with arguments that need all the registers at times.
fn calls(random: &mut Random) -> Sheet {
    let mut sheet = empty(random);
    let parts = Parts::calls(random, sheet.first);
    let arguments = Parts::any(random, sheet.first);
    for _ in 0..random.within(1, 4) {
        let height = random.within(2, 5);
        let mut tree = parts.full(random, height);
        if random.percent(60) {
            let argument = arguments.full(random, sheet.scratch.min(5) as usize);
            tree = match random.percent(50) {
                true => parts.double(random, tree, argument),
                false => parts.double(random, argument, tree),
            };
        }
        if random.percent(50) {
            tree = parts.single(random, tree);
        }
        add(&mut sheet, tree);
    }
    sheet
}

/// Eight or nine powers under a modulus fill the output; a chain of negations behind them goes on from there.
fn powers(random: &mut Random) -> Sheet {
    let mut sheet = empty(random);
    let parts = Parts::powers(random, sheet.first);
    for _ in 0..random.within(1, 6) {
        let nodes = random.within(1, 8);
        let tree = parts.exact(random, nodes);
        add(&mut sheet, tree);
    }
    let leaf = parts.leaf(random);
    let negations = random.within(0, 60);
    add(&mut sheet, (0..negations).fold(leaf, |tree, _| Tree::Unary(1, Box::new(tree))));
    sheet
}

/// The rest of the file is one gap, before, between or after the statements.
fn file_size(random: &mut Random) -> Vec<u8> {
    let sheet = valid(random, Kind::Small);
    let mut gaps = vec![Vec::new(); sheet.statements.len() + 1];
    let size = random.pick(&[FILE_LIMIT - 1, FILE_LIMIT, FILE_LIMIT, FILE_LIMIT + 1]);
    let rest = size - sheet.write(&gaps).len();
    let at = random.within(0, sheet.statements.len());
    gaps[at] = random.bytes(rest);
    sheet.write(&gaps)
}

fn equal(random: &mut Random) -> Vec<u8> {
    let byte = match random.percent(60) {
        true => random.within(0, 10) as u8,
        false => random.next() as u8,
    };
    let size = random.ranged(&[(40, (0, 40)), (40, (41, 2_000)), (20, (16_383, 16_385))]);
    vec![byte; size]
}

/// The head of a sheet, or one with no statement and bytes after it.
fn short(random: &mut Random) -> Vec<u8> {
    let mut bytes = written(empty(random));
    bytes.extend(random.bytes(8));
    if random.percent(50) {
        bytes[4] = random.within(0, 2) as u8;
    }
    bytes.truncate(random.within(0, 16));
    bytes
}
