//! Stands in for generator.rs: the signatures that the sources name; nothing implements them.

use anyhow::Result;

use super::code::Func;
use super::symbol::Loc;
use super::utils::Reg;

macro_rules! signatures {
    ($($name:ident)* : $($argument:ty),*) => { signatures!(@each [$($name)*] ($($argument),*)); };
    (@each [$($name:ident)*] $arguments:tt) => { $( signatures!(@one $name $arguments); )* };
    (@one $name:ident ($($argument:ty),*)) => { fn $name(&mut self, $(_: $argument),*); };
}

pub trait Generator {
    signatures!(neg not abs abs2 times_i times_neg_i root real_root recip round: Reg, Reg);
    signatures!(floor ceiling trunc real imaginary conjugate half sign fmov: Reg, Reg);
    signatures!(plus minus times divide gt geq lt leq eq neq: Reg, Reg, Reg);
    signatures!(and andnot or xor complex: Reg, Reg, Reg);
    signatures!(fused_mul_add fused_mul_sub: Reg, Reg, Reg, Reg);
    signatures!(fused_neg_mul_add fused_neg_mul_sub: Reg, Reg, Reg, Reg);
    signatures!(load_const load_mem load_stack load_param save_mem save_stack: Reg, u32);
    signatures!(load_mem_complex load_stack_complex load_param_complex: Reg, Reg, u32);
    signatures!(save_mem_complex save_stack_complex: Reg, Reg, u32);
    signatures!(load_args load_args_complex: Vec<Loc>, bool);
    signatures!(save_args save_args_complex: u8, bool);
    signatures!(ifelse: Reg, Reg, Reg, u32);
    signatures!(set_label branch call_funclet: &str);
    signatures!(branch_if: Reg, &str, bool);
    signatures!(times2_loc: Reg, Reg, Loc, Reg, Reg, Loc);
    signatures!(ret fuse_load_math align seal:);
    signatures!(save_used_registers load_used_registers: &[Reg]);
    signatures!(prologue_indirect epilogue_indirect: usize, usize, usize, usize);
    signatures!(prologue_fast: usize, usize, usize);
    signatures!(epilogue_fast: usize, usize, usize, i32);
    signatures!(add_consts: &[f64]);
    signatures!(add_func: &str, Func);
    fn support_times2(&self) -> bool;
    fn times_complex(&mut self, _: Reg, _: Reg, _: Reg, _: Reg, _: Reg, _: Reg) -> bool;
    fn divide_complex(&mut self, _: Reg, _: Reg, _: Reg, _: Reg, _: Reg, _: Reg) -> bool;
    fn call(&mut self, _: &str, _: usize) -> Result<()>;
    fn call_complex(&mut self, _: &str, _: usize) -> Result<()>;
}
