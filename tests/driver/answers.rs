//! The library's answer to each line of standard input, a sheet in hexadecimal, as document 01 prints it at full
//! lending; an empty line after each.

mod library;

use std::io::{self, BufRead, BufWriter, Write};

use oracle::differences::{OUTPUT_WORDS, WORK_WORDS};
use oracle::text::{kind as kinds, Listing, Operation, Site};

use crate::library::compile;

fn main() -> io::Result<()> {
    let (mut work, mut list) = (vec![0; WORK_WORDS], vec![0; OUTPUT_WORDS]);
    let mut out = BufWriter::new(io::stdout().lock());
    for line in io::stdin().lock().lines() {
        let told = compile(&bytes_of(line?.trim()), &mut work, &mut list);
        let text = match told.number {
            0 => listing(&list[..6 * told.ops as usize], told.temps).to_string(),
            number => format!("refused {number}\n"),
        };
        writeln!(out, "{text}")?;
    }
    out.flush()
}

fn bytes_of(digits: &str) -> Vec<u8> {
    let byte = |at| u8::from_str_radix(&digits[at..at + 2], 16).expect("two digits a byte");
    (0..digits.len()).step_by(2).map(byte).collect()
}

fn listing(words: &[u32], temporaries: u32) -> Listing {
    Listing { operations: words.chunks(6).map(operation).collect(), temporaries }
}

fn operation(words: &[u32]) -> Operation {
    let &[kind, code, destination, s1, s2, place] = words else { unreachable!("six words") };
    let site = match kind {
        kinds::CONST | kinds::CONSTMATH => Site::Constant(place),
        kinds::LOAD | kinds::SAVE | kinds::IFELSE | kinds::LOADMATH => {
            Site::Place(place / 65_536, place % 65_536)
        }
        _ => Site::Nowhere,
    };
    Operation { kind, code, destination, s1, s2, site }
}
