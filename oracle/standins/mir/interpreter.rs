//! Stands in for mir/interpreter.rs: running a list is never reached.

use super::Mir;

impl Mir {
    pub fn exec_instruction(&self, _: &mut [f64], _: &mut [f64], _: &mut [f64], _: &[f64]) {
        unimplemented!()
    }
}
