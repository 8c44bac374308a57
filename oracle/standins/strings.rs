//! Stands in for strings.rs: saving and loading are never reached.

use std::io::{Read, Write};

use anyhow::Result;

pub fn write(_stream: &mut impl Write, _text: &str) -> Result<()> {
    unimplemented!()
}

pub fn read(_stream: &mut impl Read) -> Result<String> {
    unimplemented!()
}
