//! The program: compile, expect, explain and generate.

use std::io::{self, BufRead, BufWriter, Write};
use std::process::ExitCode;

use oracle::class::named;
use oracle::compile::{compile_bytes, Answer};
use oracle::differences::expected;
use oracle::generate::{generate, Kind};

const USAGE: &str = "usage: oracle compile | oracle expect | oracle explain
       oracle generate SEED COUNT [valid|small|large|damaged|hostile]";

fn main() -> ExitCode {
    let arguments: Vec<String> = std::env::args().skip(1).collect();
    let words: Vec<&str> = arguments.iter().map(String::as_str).collect();
    let done = match words[..] {
        ["compile"] => answer_lines(compile_text),
        ["expect"] => answer_lines(expect_text),
        ["explain"] => answer_lines(|bytes| format!("{}\n", named(bytes))),
        ["generate", seed, count] => generate_lines(seed, count, "valid"),
        ["generate", seed, count, kind] => generate_lines(seed, count, kind),
        _ => Err(io::Error::other(USAGE)),
    };
    match done {
        Ok(()) => ExitCode::SUCCESS,
        Err(error) => {
            eprintln!("{error}");
            ExitCode::FAILURE
        }
    }
}

/// One answer a line of standard input, an empty line after each.
fn answer_lines(answer: fn(&[u8]) -> String) -> io::Result<()> {
    let mut out = BufWriter::new(io::stdout().lock());
    for line in io::stdin().lock().lines() {
        let text = match bytes_of(line?.trim()) {
            Some(bytes) => answer(&bytes),
            None => "not hexadecimal\n".to_string(),
        };
        writeln!(out, "{text}")?;
    }
    out.flush()
}

fn compile_text(bytes: &[u8]) -> String {
    match compile_bytes(bytes) {
        Answer::Unreadable => "unreadable\n".to_string(),
        Answer::Error(emitted) => format!("error after {emitted} operations\n"),
        Answer::List(listing) => listing.to_string(),
    }
}

fn expect_text(bytes: &[u8]) -> String {
    match expected(bytes) {
        Err(number) => format!("refused {number}\n"),
        Ok(listing) => listing.to_string(),
    }
}

fn generate_lines(seed: &str, count: &str, kind: &str) -> io::Result<()> {
    let usage = || io::Error::other(USAGE);
    let seed = seed.parse().map_err(|_| usage())?;
    let count: u64 = count.parse().map_err(|_| usage())?;
    let kind = Kind::named(kind).ok_or_else(usage)?;
    let mut out = BufWriter::new(io::stdout().lock());
    for number in 0..count {
        writeln!(out, "{}", hexadecimal(&generate(seed, number, kind)))?;
    }
    out.flush()
}

fn hexadecimal(bytes: &[u8]) -> String {
    const DIGITS: &[u8; 16] = b"0123456789abcdef";
    let digit = |value: u8| DIGITS[value as usize] as char;
    bytes.iter().flat_map(|byte| [digit(byte >> 4), digit(byte & 15)]).collect()
}

fn bytes_of(text: &str) -> Option<Vec<u8>> {
    let digits: Option<Vec<u32>> = text.chars().map(|c| c.to_digit(16)).collect();
    let digits = digits?;
    match digits.len() % 2 {
        0 => Some(digits.chunks(2).map(|pair| (pair[0] * 16 + pair[1]) as u8).collect()),
        _ => None,
    }
}
