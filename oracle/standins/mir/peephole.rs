//! Stands in for mir/peephole.rs: optimising is never reached.

use super::Mir;

impl Mir {
    pub fn optimize_peephole(&mut self, _level: usize) {
        unimplemented!()
    }
}
