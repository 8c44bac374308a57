//! The list, its words and its text as document 01 gives them, with the records of T-01.

use std::fmt::{self, Display, Formatter};

/// Names of the unary codes 1 to 21.
pub const UNARY: [&str; 21] = [
    "neg",
    "not",
    "abs",
    "abs2",
    "times_i",
    "times_neg_i",
    "root",
    "real_root",
    "square",
    "cube",
    "recip",
    "round",
    "floor",
    "ceiling",
    "trunc",
    "frac",
    "real",
    "imaginary",
    "conjugate",
    "iszero",
    "isnotzero",
];

/// Names of the binary codes 1 to 15.
pub const BINARY: [&str; 15] = [
    "plus", "minus", "times", "divide", "rem", "gt", "geq", "lt", "leq", "eq", "neq", "and", "or",
    "xor", "complex",
];

/// The code of times.
pub const TIMES: u32 = 3;

pub const TEMP: u32 = 254;
pub const RET: u32 = 255;

/// Operation kinds as the list numbers them.
pub mod kind {
    pub const CONST: u32 = 1;
    pub const LOAD: u32 = 2;
    pub const SAVE: u32 = 3;
    pub const MOVE: u32 = 4;
    pub const SWAP: u32 = 5;
    pub const UNI: u32 = 6;
    pub const BI: u32 = 7;
    pub const IFELSE: u32 = 8;
    pub const LOADMATH: u32 = 9;
    pub const CONSTMATH: u32 = 10;
    pub const CALL: u32 = 11;
    pub const NEED: u32 = 12;
}

/// What the place word of an operation stands for.
#[derive(Clone, Copy, Debug, Default, PartialEq, Eq)]
pub enum Site {
    #[default]
    Nowhere,
    Constant(u32),
    /// A place's kind and index; a temporary's index may pass 65,535.
    Place(u32, u32),
}

#[derive(Clone, Copy, Debug, Default, PartialEq, Eq)]
pub struct Operation {
    pub kind: u32,
    pub code: u32,
    pub destination: u32,
    pub s1: u32,
    pub s2: u32,
    pub site: Site,
}

/// The list of an accepted sheet, and its temporary count.
#[derive(Clone, Debug, PartialEq, Eq)]
pub struct Listing {
    pub operations: Vec<Operation>,
    pub temporaries: u32,
}

impl Operation {
    /// The six words of document 01.
    pub fn words(&self) -> [u32; 6] {
        let place = match self.site {
            Site::Nowhere => 0,
            Site::Constant(index) => index,
            Site::Place(kind, index) => index + 65_536 * kind,
        };
        [self.kind, self.code, self.destination, self.s1, self.s2, place]
    }
}

impl Listing {
    pub fn words(&self) -> Vec<u32> {
        self.operations.iter().flat_map(|operation| operation.words()).collect()
    }

    /// How many statements it is of: each ends with the only save that it has.
    pub fn statements(&self) -> usize {
        self.operations.iter().filter(|operation| operation.kind == kind::SAVE).count()
    }

    /// The list with a record of need before each statement (T-01).
    pub fn with_needs(&self, needs: &[u32]) -> Listing {
        let statements = self.operations.split_inclusive(|operation| operation.kind == kind::SAVE);
        let recorded = needs.iter().zip(statements).flat_map(|(need, statement)| {
            let record = Operation { kind: kind::NEED, code: *need, ..Operation::default() };
            [&[record], statement].concat()
        });
        Listing { operations: recorded.collect(), temporaries: self.temporaries }
    }

    /// And without.
    pub fn without_needs(&self) -> Listing {
        let operations = self.operations.iter().filter(|operation| operation.kind != kind::NEED);
        Listing { operations: operations.copied().collect(), temporaries: self.temporaries }
    }
}

/// The number of a function named f0 to f255; what follows a `~` is not part of the number.
pub fn function_number(name: &str) -> Option<u8> {
    name.strip_prefix('f')?.split('~').next()?.parse().ok()
}

fn unary(code: u32) -> &'static str {
    UNARY[code as usize - 1]
}

fn binary(code: u32) -> &'static str {
    BINARY[code as usize - 1]
}

struct Register(u32);

impl Display for Register {
    fn fmt(&self, out: &mut Formatter) -> fmt::Result {
        match self.0 {
            TEMP => write!(out, "t"),
            RET => write!(out, "v"),
            number => write!(out, "r{number}"),
        }
    }
}

impl Display for Site {
    fn fmt(&self, out: &mut Formatter) -> fmt::Result {
        match self {
            Site::Nowhere => write!(out, "?"),
            Site::Constant(index) => write!(out, "c{index}"),
            Site::Place(1, index) => write!(out, "s{index}"),
            Site::Place(2, index) => write!(out, "m{index}"),
            Site::Place(_, index) => write!(out, "p{index}"),
        }
    }
}

impl Display for Operation {
    fn fmt(&self, out: &mut Formatter) -> fmt::Result {
        let Operation { code, site, .. } = *self;
        let (d, s1, s2) = (Register(self.destination), Register(self.s1), Register(self.s2));
        match self.kind {
            kind::CONST => write!(out, "const {d} {site}"),
            kind::LOAD => write!(out, "load {d} {site}"),
            kind::SAVE => write!(out, "save {s1} {site}"),
            kind::MOVE => write!(out, "move {d} {s1}"),
            kind::SWAP => write!(out, "swap {d} {s1}"),
            kind::UNI => write!(out, "uni {} {d} {s1}", unary(code)),
            kind::BI => write!(out, "bi {} {d} {s1} {s2}", binary(code)),
            kind::IFELSE => write!(out, "ifelse {d} {s1} {s2} {site}"),
            kind::LOADMATH => write!(out, "loadmath {} {d} {s1} {site}", binary(code)),
            kind::CONSTMATH => write!(out, "constmath {} {d} {s1} {site}", binary(code)),
            kind::CALL => write!(out, "call f{code} {}", self.s1),
            kind::NEED => write!(out, "need {code}"),
            other => unreachable!("operation kind {other}"),
        }
    }
}

impl Display for Listing {
    fn fmt(&self, out: &mut Formatter) -> fmt::Result {
        writeln!(out, "ops {} temps {}", self.operations.len(), self.temporaries)?;
        for operation in &self.operations {
            writeln!(out, "{operation}")?;
        }
        Ok(())
    }
}
