//! One sheet given to both: the Rust's answer classed, and every call of ours held to the documents.

use std::panic::catch_unwind;

use oracle::class::{class, Class};
use oracle::compile::{compile_bytes, Answer};
use oracle::differences::{at_lent, listed};
use oracle::generate::Random;
use oracle::sheet::Tree;
use oracle::text::Listing;

use crate::call::{Expected, Memory};
use crate::lent::{Lending, FULL};
use crate::library::Numbers;
use crate::tally::{Tally, LAST_NUMBER};

/// Calls with other than full lending, for each sheet.
const OTHER_LENDINGS: usize = 2;

pub struct Sheet {
    pub name: String,
    pub file: Vec<u8>,
}

/// What the Rust says of a sheet, and what the documents ask for by checks 2 to 9 and 11.
struct Asked {
    rust: Answer,
    listed: Result<Listing, u8>,
    words: Vec<u32>,
}

fn ask(file: &[u8]) -> Asked {
    let listed = listed(file);
    let words = listed.as_ref().map_or(Vec::new(), Listing::words);
    Asked { rust: compile_bytes(file), listed, words }
}

/// Tries a sheet with full lending and some others.
pub fn try_sheet(memory: &mut Memory, tally: &mut Tally, random: &mut Random, sheet: &Sheet) {
    tally.sheets += 1;
    let Ok(asked) = catch_unwind(|| ask(&sheet.file)) else {
        return tally.count_unexplained(|| report(sheet, "the Rust stopped", ""));
    };
    let class = class(&sheet.file, &asked.rust, &asked.listed);
    tally.count_class(class);
    tally.with_power += u64::from(has_power(&sheet.file));
    if let Ok(listing) = &asked.listed {
        tally.count_list(listing.operations.len(), listing.temporaries);
    }
    let told = try_call(memory, tally, random, sheet, &asked, FULL);
    tally.numbers[told.number.min(LAST_NUMBER as u32) as usize] += 1;
    if class == Class::Unexplained {
        let answers = answers(&asked, memory, told);
        tally.count_unexplained(|| report(sheet, "the Rust's own answer", &answers));
    }
    for _ in 0..OTHER_LENDINGS {
        let lending = Lending::any(random);
        try_call(memory, tally, random, sheet, &asked, lending);
    }
}

fn has_power(file: &[u8]) -> bool {
    oracle::sheet::Sheet::read(file).is_ok_and(|sheet| sheet.count(Tree::is_power) > 0)
}

fn try_call(
    memory: &mut Memory,
    tally: &mut Tally,
    random: &mut Random,
    sheet: &Sheet,
    asked: &Asked,
    lending: Lending,
) -> Numbers {
    let operations = asked.listed.as_ref().map_or(0, |listing| listing.operations.len());
    let (work, out) = lending.words(operations);
    let due = at_lent(&asked.listed, work, out);
    let words = if due.is_ok() { &asked.words[..] } else { &[] };
    let expected = Expected { numbers: Numbers::of(due), words };
    let noise = random.next() as u32 | 1;
    let told = memory.call(&sheet.file, work, out, random.pick(&[noise, 1, u32::MAX]));
    tally.count_call(lending, told.number);
    if let Some(fault) = memory.fault(&sheet.file, told, &expected) {
        let what =
            format!("{fault} at {work} words of work, {out} of output, due {:?}", expected.numbers);
        tally.count_unexplained(|| report(sheet, &what, &answers(asked, memory, told)));
    }
    told
}

fn report(sheet: &Sheet, what: &str, answers: &str) -> String {
    let file: String = sheet.file.iter().map(|byte| format!("{byte:02x}")).collect();
    format!("unexplained, {}: {what}\n{file}\n{answers}", sheet.name)
}

/// The Rust's own answer, the documents' before lent words are looked at, and ours.
fn answers(asked: &Asked, memory: &Memory, told: Numbers) -> String {
    let rust = match &asked.rust {
        Answer::Unreadable => "unreadable\n".to_string(),
        Answer::Error(emitted) => format!("error after {emitted} operations\n"),
        Answer::List(listing) => listing.to_string(),
    };
    let due = match &asked.listed {
        Err(number) => format!("refused {number}\n"),
        Ok(listing) => listing.to_string(),
    };
    let ours: String = memory.output().chunks(6).map(|words| format!("{words:?}\n")).collect();
    format!("the Rust:\n{rust}the documents:\n{due}here: {told:?}\n{ours}")
}
