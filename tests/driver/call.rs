//! One call of the compiler over dirty lent words, held to what is expected of it.

use oracle::text::Listing;

use crate::library::{compile, Numbers};

/// The most words that are lent at a time: the longest list has 935,502.
pub const MOST: usize = 1 << 20;
const GUARD: usize = 64;
static ZEROS: [u32; MOST] = [0; MOST];

impl Numbers {
    pub fn of(expected: Result<&Listing, u8>) -> Numbers {
        match expected {
            Err(number) => Numbers { number: number.into(), ops: 0, temps: 0 },
            Ok(listing) => Numbers {
                number: 0,
                ops: listing.operations.len() as u32,
                temps: listing.temporaries,
            },
        }
    }
}

/// What a call is to answer, and the words it is to leave in the output.
pub struct Expected<'a> {
    pub numbers: Numbers,
    pub words: &'a [u32],
}

/// Words to lend, with a guard on either side of them.
struct Lent {
    words: Vec<u32>,
    length: usize,
    dirt: u32,
}

impl Lent {
    fn new() -> Lent {
        Lent { words: vec![0; GUARD + MOST + GUARD], length: 0, dirt: 0 }
    }

    /// Makes so many words dirty, with their guards.
    fn lend(&mut self, length: usize, dirt: u32) -> &mut [u32] {
        (self.length, self.dirt) = (length, dirt);
        self.words[..GUARD + length + GUARD].fill(dirt);
        &mut self.words[GUARD..GUARD + length]
    }

    fn lent(&self) -> &[u32] {
        &self.words[GUARD..GUARD + self.length]
    }

    fn guards_stand(&self) -> bool {
        let after = GUARD + self.length;
        let guard = [self.dirt; GUARD];
        self.words[..GUARD] == guard && self.words[after..after + GUARD] == guard
    }
}

/// What one thread lends, call after call.
pub struct Memory {
    work: Lent,
    out: Lent,
    file: Vec<u8>,
}

impl Memory {
    pub fn new() -> Memory {
        Memory { work: Lent::new(), out: Lent::new(), file: Vec::new() }
    }

    /// Calls the compiler on a file.
    pub fn call(&mut self, file: &[u8], work: usize, out: usize, dirt: u32) -> Numbers {
        self.file.clear();
        self.file.extend(file);
        compile(&self.file, self.work.lend(work, dirt), self.out.lend(out, dirt))
    }

    /// What the last call did wrong, if anything.
    pub fn fault(&self, file: &[u8], told: Numbers, expected: &Expected) -> Option<&'static str> {
        let out = self.out.lent();
        if told != expected.numbers {
            return Some("other numbers");
        }
        let (list, rest) = out.split_at(expected.words.len());
        let faults = [
            (list == expected.words, "other words in the list"),
            (rest == &ZEROS[..rest.len()], "output not zero past the list"),
            (self.work.lent() == &ZEROS[..self.work.length], "work not zero"),
            (self.work.guards_stand(), "words beside the work changed"),
            (self.out.guards_stand(), "words beside the output changed"),
            (self.file == file, "file changed"),
        ];
        faults.iter().find(|(holds, _)| !holds).map(|(_, fault)| *fault)
    }

    /// The words of output after the last call, up to the last that is not zero.
    pub fn output(&self) -> &[u32] {
        let out = self.out.lent();
        let used = out.iter().rposition(|word| *word != 0).map_or(0, |last| last + 1);
        &out[..used]
    }
}
