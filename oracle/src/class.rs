//! What lies between the Rust's own answer to a sheet and the documents' (docs/DIFFERENCES.md).

use crate::compile::{compile_bytes, Answer};
use crate::differences::{at_lent, listed, listed_with, past_last_index, Worked};
use crate::differences::{OUTPUT_WORDS, WORK_WORDS};
use crate::sheet::{Sheet, Tree};
use crate::text::Listing;

#[derive(Clone, Copy, PartialEq, Eq)]
pub enum Class {
    Equal,
    NoFile,
    Error,
    GoesOn,
    ChanceKeys,
    MoveOrder,
    WideModulus,
    LowestPower,
    Several,
    Unexplained,
}

pub const CLASSES: [(Class, &str); 10] = [
    (Class::Equal, "the Rust's own answer"),
    (Class::NoFile, "refused 2 to 7 or 11 (the Rust has no file)"),
    (Class::Error, "refused 8 (the Rust's error; difference 3)"),
    (Class::GoesOn, "refused 9 or 10 (the Rust goes on)"),
    (Class::ChanceKeys, "chance agreement of keys (difference 1)"),
    (Class::MoveOrder, "order of moves before a call (difference 2)"),
    (Class::WideModulus, "a wide modulus overwritten (difference 4)"),
    (Class::LowestPower, "power -2,147,483,648 under tag 8 (difference 5)"),
    (Class::Several, "two or more of these four at once"),
    (Class::Unexplained, "the Rust's answer is unexplained"),
];

/// The place of a class in the table.
pub fn row(class: Class) -> usize {
    CLASSES.iter().position(|(known, _)| *known == class).expect("a class of the table")
}

/// A class's words for a file.
pub fn named(file: &[u8]) -> &'static str {
    CLASSES[row(class(file, &compile_bytes(file), &listed(file)))].1
}

/// Why the Rust's own answer is, or is not, the one that the documents ask for at full lending.
pub fn class(file: &[u8], rust: &Answer, listed: &Result<Listing, u8>) -> Class {
    let due = full(listed);
    let sheet = match (Sheet::read(file), rust, due) {
        (Err(read), Answer::Unreadable, Err(number)) if read == number => return Class::NoFile,
        (Ok(sheet), Answer::Error(_) | Answer::List(_), _) => sheet,
        _ => return Class::Unexplained,
    };
    match (rust, due) {
        (Answer::Error(_), Err(8)) => Class::Error,
        (Answer::List(own), Ok(list)) if *own == list.without_needs() => Class::Equal,
        (Answer::List(own), Err(number)) if passes(&sheet, own, number) => Class::GoesOn,
        _ => different(&sheet, due),
    }
}

fn full(listed: &Result<Listing, u8>) -> Result<&Listing, u8> {
    at_lent(listed, WORK_WORDS, OUTPUT_WORDS)
}

/// Whether the Rust's list passes the limit of a refusal, records counted.
fn passes(sheet: &Sheet, own: &Listing, number: u8) -> bool {
    match number {
        9 => past_last_index(sheet, own),
        10 => 6 * (own.operations.len() + own.statements()) > OUTPUT_WORDS,
        _ => false,
    }
}

/// A difference, the sheets that can have it, and how it is worked in or left out.
struct Cause {
    class: Class,
    possible: fn(&Sheet) -> bool,
    switched: fn(Worked, bool) -> Worked,
}

const CAUSES: [Cause; 4] = [
    Cause {
        class: Class::ChanceKeys,
        possible: calls_may_merge,
        switched: |worked, calls| Worked { calls, ..worked },
    },
    Cause {
        class: Class::MoveOrder,
        possible: |sheet| sheet.count(is_call_of_two) > 0,
        switched: |worked, moves| Worked { moves, ..worked },
    },
    Cause {
        class: Class::WideModulus,
        possible: |sheet| sheet.count(is_modular) > 0,
        switched: |worked, moduli| Worked { moduli, ..worked },
    },
    Cause {
        class: Class::LowestPower,
        possible: |sheet| sheet.count(is_lowest) > 0,
        switched: |worked, lowest| Worked { lowest, ..worked },
    },
];

/// The differences without which the answer would be another one; or those that bring it each by itself, such as two
/// that both take the temporaries past the last index. The Rust's own answer has none worked in.
fn different(sheet: &Sheet, due: Result<&Listing, u8>) -> Class {
    let brings = |worked: Worked| full(&listed_with(sheet, worked)) == due;
    let missed = |cause: &&Cause| !brings((cause.switched)(Worked::ALL, false));
    let enough = |cause: &&Cause| brings((cause.switched)(Worked::NONE, true));
    let mut found: Vec<&Cause> = CAUSES.iter().filter(missed).collect();
    if found.is_empty() {
        found = CAUSES.iter().filter(enough).collect();
    }
    match found[..] {
        _ if !found.iter().all(|cause| (cause.possible)(sheet)) => Class::Unexplained,
        [] => Class::Unexplained,
        [cause] => cause.class,
        _ => Class::Several,
    }
}

/// Keys agree by chance only with sharing on and between two calls of two arguments.
fn calls_may_merge(sheet: &Sheet) -> bool {
    sheet.sharing() && sheet.count(is_call_of_two) >= 2
}

fn is_call_of_two(tree: &Tree) -> bool {
    matches!(tree, Tree::Function2(..))
}

fn is_modular(tree: &Tree) -> bool {
    matches!(tree, Tree::ModularPower(..))
}

fn is_lowest(tree: &Tree) -> bool {
    matches!(tree, Tree::Power(i32::MIN, _))
}
