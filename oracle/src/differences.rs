//! The differences of docs/DIFFERENCES.md and the records of T-01 worked into the Rust's answer.

use std::collections::HashMap;

use crate::compile::{compile_sheet, Compiled};
use crate::sheet::{Sheet, Tree};
use crate::text::{kind, Listing, Operation, TEMP, TIMES};

/// What the program lends; the work is also what check 1 asks for.
pub const WORK_WORDS: usize = 16_384;
pub const OUTPUT_WORDS: usize = 16_384;

/// Which differences are worked in. Calls and moduli are seen to while the Rust runs, the others in its list.
#[derive(Clone, Copy, PartialEq, Eq)]
pub struct Worked {
    /// Difference 1: calls are merged where their trees are the same, and nowhere else.
    pub calls: bool,
    /// Difference 2: Left is moved first.
    pub moves: bool,
    /// Difference 4: a modulus that needs more registers than its base is stored.
    pub moduli: bool,
    /// Difference 5: the lowest power is 31 squarings.
    pub lowest: bool,
}

impl Worked {
    pub const NONE: Worked = Worked { calls: false, moves: false, moduli: false, lowest: false };
    pub const ALL: Worked = Worked { calls: true, moves: true, moduli: true, lowest: true };
}

/// What the documents ask for a file at full lending: the list, or the number of the refusal.
pub fn expected(bytes: &[u8]) -> Result<Listing, u8> {
    let listed = listed(bytes);
    at_lent(&listed, WORK_WORDS, OUTPUT_WORDS)?;
    listed
}

/// What the documents ask for a file by checks 2 to 9 and 11, which do not look at what was lent.
pub fn listed(bytes: &[u8]) -> Result<Listing, u8> {
    listed_with(&Sheet::read(bytes)?, Worked::ALL)
}

/// The Rust's answer to a sheet by checks 8 and 9, with some differences worked in, and the records.
pub fn listed_with(sheet: &Sheet, worked: Worked) -> Result<Listing, u8> {
    let Compiled { mut listing, needs } = compile_sheet(sheet, worked).map_err(|_| 8)?;
    if past_last_index(sheet, &listing) {
        return Err(9);
    }
    if worked.moves {
        move_left_first(&mut listing);
    }
    if worked.lowest {
        drop_shifted_power(&mut listing);
    }
    Ok(listing.with_needs(&needs))
}

/// The same with the lent words looked at: check 1 comes before the others, check 10 after them.
pub fn at_lent(listed: &Result<Listing, u8>, work: usize, output: usize) -> Result<&Listing, u8> {
    if work < WORK_WORDS {
        return Err(1);
    }
    match listed {
        Err(number) => Err(*number),
        Ok(listing) if output < 6 * listing.operations.len() => Err(10),
        Ok(listing) => Ok(listing),
    }
}

/// Check 9.
pub fn past_last_index(sheet: &Sheet, listing: &Listing) -> bool {
    sheet.first as u32 + sheet.step as u32 * listing.temporaries > 65_536
}

/// Numbers calls so that same trees, and no others, have one number (difference 1): the Rust keys a
/// call by its name too, so with the number in the name chance agreements of hashes go.
#[derive(Default)]
pub struct Classes {
    numbers: HashMap<Vec<u8>, usize>,
}

impl Classes {
    pub fn class(&mut self, tree: &Tree) -> usize {
        let next = self.numbers.len();
        *self.numbers.entry(ordered(tree)).or_insert(next)
    }
}

/// The bytes of a tree with the sides of every commuting operation put in one order.
fn ordered(tree: &Tree) -> Vec<u8> {
    let mut sides: Vec<Vec<u8>> = tree.sides().into_iter().map(ordered).collect();
    if commutes(tree) {
        sides.sort();
    }
    let mut bytes = Vec::new();
    tree.write_head(&mut bytes);
    bytes.extend(sides.into_iter().flatten());
    bytes
}

/// plus, times, eq, neq, and, or, xor.
pub fn commutes(tree: &Tree) -> bool {
    matches!(tree, Tree::Binary(1 | 3 | 10 | 11 | 12 | 13 | 14, _, _))
}

/// Difference 2: the Rust's `move r1 ry`, `move r0 r1` before a call of two, exchanged.
fn move_left_first(listing: &mut Listing) {
    for at in 2..listing.operations.len() {
        let [right, left, call] = [at - 2, at - 1, at].map(|k| listing.operations[k]);
        let calls_two = call.kind == kind::CALL && call.s1 == 2;
        let right_moves = right.kind == kind::MOVE && right.destination == 1 && right.s1 >= 2;
        let left_follows = left.kind == kind::MOVE && left.destination == 0 && left.s1 == 1;
        if calls_two && right_moves && left_follows {
            listing.operations.swap(at - 2, at - 1);
        }
    }
}

/// The digits that the Rust finds in 2^31 shifted by 32: all 32 of it.
const SHIFTED: usize = 32;

/// Difference 5: the squares in Temp and the product that the Rust puts before the 31 squarings of the lowest power.
/// No other power has so many squares.
fn drop_shifted_power(listing: &mut Listing) {
    let mut kept = Vec::with_capacity(listing.operations.len());
    let mut rest = &listing.operations[..];
    while let Some(first) = rest.first() {
        if is_shifted(rest) {
            rest = &rest[SHIFTED + 1..];
        } else {
            kept.push(*first);
            rest = &rest[1..];
        }
    }
    listing.operations = kept;
}

/// Whether operations begin with `times t d d`, `times t t t` 31 times, `times d d t`.
fn is_shifted(operations: &[Operation]) -> bool {
    if operations.len() <= SHIFTED {
        return false;
    }
    let power = operations[0].s1;
    let squares = operations[1..SHIFTED].iter().all(|one| *one == times(TEMP, TEMP, TEMP));
    let begins = operations[0] == times(TEMP, power, power);
    begins && squares && operations[SHIFTED] == times(power, power, TEMP)
}

fn times(destination: u32, s1: u32, s2: u32) -> Operation {
    Operation { kind: kind::BI, code: TIMES, destination, s1, s2, ..Operation::default() }
}
