//! Stands in for code.rs: the table in which a called function is looked up.

use anyhow::{anyhow, Result};

#[derive(Clone, Debug)]
pub enum Func {
    Unary(()),
    Binary(()),
    PairedUnary(()),
    Slice {},
    App(()),
    UnaryCplx(()),
    BinaryCplx(()),
    Recursive,
}

pub struct VirtualTable;

impl VirtualTable {
    pub fn from_str(name: &str) -> Result<Func> {
        match crate::text::function_number(name) {
            Some(_) => Ok(Func::Unary(())),
            None => Err(anyhow!("{} is not a function", name)),
        }
    }
}
