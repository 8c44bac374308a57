//! Which sizes of lent memory a sheet is tried with.

use oracle::differences::{OUTPUT_WORDS, WORK_WORDS};
use oracle::generate::Random;

use crate::call::MOST;

/// A number of words, said outright or from the length of the list.
#[derive(Clone, Copy)]
pub enum Size {
    Words(usize),
    /// Six words an operation, and so many more or fewer.
    List(isize),
}

use Size::{List, Words};

pub const WORKS: [(&str, Size); 6] = [
    ("0", Words(0)),
    ("1", Words(1)),
    ("16,383", Words(WORK_WORDS - 1)),
    ("16,384", Words(WORK_WORDS)),
    ("16,385", Words(WORK_WORDS + 1)),
    ("20,000", Words(20_000)),
];

pub const OUTS: [(&str, Size); 12] = [
    ("0", Words(0)),
    ("1", Words(1)),
    ("6", Words(6)),
    ("6N - 6", List(-6)),
    ("6N - 1", List(-1)),
    ("6N", List(0)),
    ("6N + 1", List(1)),
    ("6N + 6", List(6)),
    ("16,383", Words(OUTPUT_WORDS - 1)),
    ("16,384", Words(OUTPUT_WORDS)),
    ("16,385", Words(OUTPUT_WORDS + 1)),
    ("20,000", Words(20_000)),
];

/// Chances of the rows of WORKS: mostly enough work, so that the other checks are reached.
const WORK_CHANCES: [(usize, usize); 6] = [(4, 0), (4, 1), (12, 2), (60, 3), (12, 4), (8, 5)];

/// One call's row of WORKS and row of OUTS.
#[derive(Clone, Copy, PartialEq, Eq)]
pub struct Lending {
    pub work: usize,
    pub out: usize,
}

pub const FULL: Lending = Lending { work: 3, out: 9 };

impl Lending {
    pub fn any(random: &mut Random) -> Lending {
        Lending { work: random.weighted(&WORK_CHANCES), out: random.within(0, OUTS.len() - 1) }
    }

    /// The words of work and of output, where the list has so many operations; no list counts as none.
    pub fn words(self, operations: usize) -> (usize, usize) {
        let words = |size| match size {
            Words(words) => words,
            List(more) => (6 * operations).saturating_add_signed(more).min(MOST),
        };
        (words(WORKS[self.work].1), words(OUTS[self.out].1))
    }
}
