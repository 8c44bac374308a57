//! Damaged sheets: a valid one with one to four changes, many of them just at or past a limit.

use crate::generate::{valid, write, Kind, Random};
use crate::grow::at_node;
use crate::sheet::{Place, Sheet, Statement, Tree, FILE_LIMIT, MEMORY, PARAMETER, STACK};

#[derive(Clone, Copy)]
enum Damage {
    // to the trees
    Depth,
    Nodes,
    Code,
    PlaceKind,
    StackIndex,
    LowestPower,
    Destination,
    // to the file
    Byte,
    NearByte,
    Cut,
    Extend,
    FileSize,
    Header,
    Pair,
    CutPower,
}

const DAMAGES: [(usize, Damage); 15] = [
    (4, Damage::Depth),
    (4, Damage::Nodes),
    (8, Damage::Code),
    (6, Damage::PlaceKind),
    (8, Damage::StackIndex),
    (4, Damage::LowestPower),
    (4, Damage::Destination),
    (18, Damage::Byte),
    (14, Damage::NearByte),
    (8, Damage::Cut),
    (5, Damage::Extend),
    (3, Damage::FileSize),
    (9, Damage::Header),
    (9, Damage::Pair),
    (4, Damage::CutPower),
];
const START: [(usize, Kind); 2] = [(60, Kind::Small), (40, Kind::Valid)];

/// Changes to the trees come first, then those to the bytes.
pub fn damaged(random: &mut Random) -> Vec<u8> {
    let kind = random.weighted(&START);
    let mut sheet = valid(random, kind);
    let count = random.within(1, 4);
    let damages: Vec<Damage> = (0..count).map(|_| random.weighted(&DAMAGES)).collect();
    for damage in &damages {
        damage_sheet(random, &mut sheet, *damage);
    }
    let mut bytes = write(random, &sheet, kind);
    for damage in &damages {
        damage_file(random, &mut bytes, *damage);
    }
    bytes
}

fn damage_sheet(random: &mut Random, sheet: &mut Sheet, damage: Damage) {
    let first = sheet.first;
    match damage {
        Damage::Depth => {
            let depth = random.pick(&[64, 65, 66]);
            add(sheet, (1..depth).fold(Tree::Constant(0), |tree, _| unary(tree)));
        }
        Damage::Nodes => {
            let missing = random.pick(&[1_024, 1_025, 1_026]) - sheet.nodes().min(1_023);
            add(sheet, flat(missing));
        }
        Damage::Code => {
            let code = random.pick(&[0, 15, 16, 21, 22, 255]);
            change_node(random, sheet, &mut |node| set_code(node, code));
        }
        Damage::PlaceKind => {
            let kind = random.pick(&[0, 4, 255]);
            change_node(random, sheet, &mut |node| set_place(node, |place| place.kind = kind));
        }
        Damage::StackIndex => {
            let index =
                random.pick(&[first, first.saturating_sub(1), first.saturating_add(1), 65_535]);
            change_node(random, sheet, &mut |node| {
                set_place(node, |place| *place = Place { kind: STACK, index })
            });
        }
        Damage::LowestPower => {
            let power = random.pick(&[i32::MIN, i32::MIN, i32::MIN + 1]);
            change_node(random, sheet, &mut |node| set_power(node, power));
        }
        Damage::Destination => destination(random, sheet),
        _ => {}
    }
}

fn unary(arg: Tree) -> Tree {
    Tree::Unary(1, Box::new(arg))
}

/// A tree of exactly this many nodes.
fn flat(nodes: usize) -> Tree {
    match nodes {
        1 => Tree::Constant(0),
        2 => unary(Tree::Constant(0)),
        _ => {
            let left = flat((nodes - 1) / 2);
            Tree::Binary(2, Box::new(left), Box::new(flat(nodes - 1 - (nodes - 1) / 2)))
        }
    }
}

fn add(sheet: &mut Sheet, tree: Tree) {
    sheet.statements.push(Statement { place: Place { kind: MEMORY, index: 0 }, tree });
}

fn destination(random: &mut Random, sheet: &mut Sheet) {
    if sheet.statements.is_empty() {
        return;
    }
    let last = sheet.statements.len() - 1;
    let first = sheet.first;
    let bad = [(PARAMETER, 0), (0, 0), (4, 0), (STACK, first), (STACK, first.saturating_sub(1))];
    let (kind, index) = random.pick(&bad);
    sheet.statements[random.within(0, last)].place = Place { kind, index };
}

fn change_node(random: &mut Random, sheet: &mut Sheet, act: &mut dyn FnMut(&mut Tree)) {
    if sheet.statements.is_empty() {
        return;
    }
    let last = sheet.statements.len() - 1;
    let tree = &mut sheet.statements[random.within(0, last)].tree;
    let mut at = random.within(0, tree.weight() - 1);
    at_node(tree, &mut at, act);
}

fn set_code(node: &mut Tree, new: u8) {
    if let Tree::Unary(code, _) | Tree::Binary(code, _, _) = node {
        *code = new;
    }
}

/// A power gets another one; any other node is put under a modulus.
fn set_power(node: &mut Tree, new: i32) {
    if let Tree::Power(power, _) | Tree::ModularPower(power, _, _) = node {
        *power = new;
    } else {
        let base = std::mem::replace(node, Tree::Constant(0));
        *node = Tree::ModularPower(new, Box::new(base), Box::new(Tree::Constant(0)));
    }
}

fn set_place(node: &mut Tree, change: impl Fn(&mut Place)) {
    if let Tree::Variable(place) | Tree::Choice(place, _, _) = node {
        change(place);
    }
}

fn damage_file(random: &mut Random, bytes: &mut Vec<u8>, damage: Damage) {
    match damage {
        Damage::Byte => {
            let byte = random.next() as u8;
            set_byte(random, bytes, |_| byte);
        }
        Damage::NearByte => {
            let small = random.within(0, 10) as u8;
            match random.within(0, 2) {
                0 => set_byte(random, bytes, |byte| byte.wrapping_add(1)),
                1 => set_byte(random, bytes, |byte| byte.wrapping_sub(1)),
                _ => set_byte(random, bytes, |_| small),
            }
        }
        Damage::Cut => {
            let last = bytes.len().saturating_sub(1);
            let length = if random.percent(50) { last } else { random.within(0, last) };
            bytes.truncate(length);
        }
        Damage::Extend => {
            let count = random.within(1, 20);
            bytes.extend(random.bytes(count));
        }
        Damage::FileSize => {
            let sizes = [0, 7, 8, FILE_LIMIT, FILE_LIMIT + 1];
            bytes.resize(random.pick(&sizes), 0);
        }
        Damage::Header => header(random, bytes),
        Damage::Pair => pair(random, bytes),
        Damage::CutPower => cut_power(random, bytes),
        _ => {}
    }
}

fn set_byte(random: &mut Random, bytes: &mut [u8], new: impl Fn(u8) -> u8) {
    if !bytes.is_empty() {
        let at = random.within(0, bytes.len() - 1);
        bytes[at] = new(bytes[at]);
    }
}

/// Values in and out of range for each byte of the header.
fn header(random: &mut Random, bytes: &mut [u8]) {
    if bytes.len() < 8 {
        return;
    }
    match random.within(0, 5) {
        0 => bytes[0] = random.pick(&[0, 1, 2, 32, 33, 255]),
        1 => bytes[1] = random.pick(&[0, 1, 3, 4, 7, 8, 128]),
        2 => bytes[2] = random.pick(&[0, 1, 8, 9, 255]),
        3 => bytes[3] = random.pick(&[0, 1, 255]),
        4 => {
            let count = word(bytes, 4);
            let near = [0, count.wrapping_sub(1), count.wrapping_add(1), 256, 257, 65_535];
            set_word(bytes, 4, random.pick(&near));
        }
        _ => set_word(bytes, 6, random.pick(&[0, 1, 2, 65_534, 65_535])),
    }
}

/// Offsets and lengths off by one, zero or far out, and pairs exchanged.
fn pair(random: &mut Random, bytes: &mut [u8]) {
    let count = if bytes.len() < 8 { 0 } else { word(bytes, 4) as usize };
    if count == 0 || bytes.len() < 8 + 4 * count {
        return;
    }
    let at = 8 + 4 * random.within(0, count - 1);
    let other = 8 + 4 * random.within(0, count - 1);
    let (offset, length) = (word(bytes, at), word(bytes, at + 2));
    match random.within(0, 6) {
        0 => set_word(bytes, at, offset.wrapping_add(1)),
        1 => set_word(bytes, at, offset.wrapping_sub(1)),
        2 => set_word(bytes, at + 2, length.wrapping_add(1)),
        3 => set_word(bytes, at + 2, length.wrapping_sub(1)),
        4 => set_word(bytes, at + 2, random.pick(&[0, 1, 65_535])),
        5 => set_word(bytes, at, random.pick(&[0, 8, 65_535])),
        _ => (0..4).for_each(|k| bytes.swap(at + k, other + k)),
    }
}

/// A statement becomes a power that ends early: in its four bytes or right after them.
fn cut_power(random: &mut Random, bytes: &mut [u8]) {
    let count = if bytes.len() < 8 { 0 } else { word(bytes, 4) as usize };
    if count == 0 || bytes.len() < 8 + 4 * count {
        return;
    }
    let at = 8 + 4 * random.within(0, count - 1);
    let tag = word(bytes, at) as usize + 3;
    if tag + 5 > bytes.len() {
        return;
    }
    bytes[tag] = random.pick(&[8, 9, 9]);
    let power: i32 = random.pick(&[i32::MIN, i32::MIN, i32::MIN + 1, i32::MAX, 0]);
    bytes[tag + 1..tag + 5].copy_from_slice(&power.to_le_bytes());
    set_word(bytes, at + 2, random.within(4, 8) as u16);
}

pub fn word(bytes: &[u8], at: usize) -> u16 {
    u16::from_le_bytes([bytes[at], bytes[at + 1]])
}

pub fn set_word(bytes: &mut [u8], at: usize, value: u16) {
    bytes[at..at + 2].copy_from_slice(&value.to_le_bytes());
}
