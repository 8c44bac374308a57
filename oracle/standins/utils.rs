//! Stands in for utils.rs: registers, and the traits that the sources name.

use std::io::{Read, Write};

use anyhow::Result;

use super::config::Config;
use super::machine::MachineCode;

#[derive(Clone, Copy, Debug, PartialEq, Eq, Hash)]
pub enum Reg {
    Gen(u8),
    Temp,
    Ret,
}

/// Left and Right are scratch registers 0 and 1 (document 01), so they compare equal to these.
#[allow(non_upper_case_globals)]
impl Reg {
    pub const Left: Reg = Reg::Gen(0);
    pub const Right: Reg = Reg::Gen(1);
}

pub fn reg(number: u8) -> Reg {
    Reg::Gen(number)
}

pub struct CompiledFunc<T>(pub T);

pub trait Compiled<T> {
    fn exec(&mut self, params: &[T]);
    fn evaluate(&mut self, args: &[T], outs: &mut [T]);
    fn evaluate_single(&mut self, args: &[T]) -> T;
    fn mem(&self) -> &[T];
    fn mem_mut(&mut self) -> &mut [T];
    fn dump(&self, name: &str);
    fn dumps(&self) -> Vec<u8>;
    fn func(&self) -> CompiledFunc<T>;
    fn support_indirect(&self) -> bool;
    fn count_lanes(&self) -> usize;
    fn as_machine(&self) -> Option<&MachineCode<T>>;
}

pub trait Storage: Sized {
    fn save(&self, stream: &mut impl Write) -> Result<()>;
    fn load_with_version(stream: &mut impl Read, config: &Config, version: usize) -> Result<Self>;
}
