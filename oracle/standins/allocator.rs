//! Stands in for allocator.rs: optimising is never reached.

use anyhow::Result;

use super::config::Config;
use super::mir::Mir;

pub struct GreedyAllocator;

impl GreedyAllocator {
    pub fn new(_config: Config, _scratch: usize) -> GreedyAllocator {
        unimplemented!()
    }

    pub fn optimize(&mut self, _mir: &mut Mir) -> Result<()> {
        unimplemented!()
    }
}
