//! Stands in for serializer.rs: the emitted instructions in order, with swaps among them.

use super::mir::Instruction;
use super::utils::Reg;

#[derive(Clone)]
pub enum Record {
    Emitted(Instruction),
    Swap(Reg, Reg),
}

#[derive(Clone, Default)]
pub struct MirWriter {
    pub records: Vec<Record>,
    pub ip: usize,
}

impl MirWriter {
    pub fn new() -> MirWriter {
        MirWriter::default()
    }

    pub fn push(&mut self, instruction: &Instruction) {
        self.records.push(Record::Emitted(instruction.clone()));
        self.ip += 1;
    }

    pub fn swap(&mut self, destination: Reg, s1: Reg) {
        self.records.push(Record::Swap(destination, s1));
        self.ip += 1;
    }

    pub fn iter(&self) -> std::vec::IntoIter<Instruction> {
        unimplemented!()
    }
}
