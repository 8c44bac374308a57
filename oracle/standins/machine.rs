//! Stands in for machine.rs: a type that is named and never made.

pub struct MachineCode<T>(pub T);
