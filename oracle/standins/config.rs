//! Stands in for config.rs: document 01's settings (real mode, no topology, nothing external).

use std::collections::HashMap;

use super::code::Func;
use super::operation::Operation;
use crate::text::{BINARY, UNARY};

pub const SPILL_AREA: usize = 0;
pub const COMPRESSED_ARGS_CAP: usize = 0;

#[derive(Clone, Debug)]
pub struct Defined {
    pub funcs: HashMap<String, Func>,
}

#[derive(Clone, Debug, Default)]
pub struct Config {
    pub sharing: bool,
    pub fused: bool,
    pub stable: bool,
    pub scratch: u8,
    /// Not the Rust's: whether a wide modulus is stored (modulus.rs).
    pub stores_moduli: bool,
    pub df: Option<Defined>,
}

impl Config {
    pub fn cse(&self) -> bool {
        self.sharing
    }

    pub fn is_amd64(&self) -> bool {
        self.fused
    }

    pub fn count_scratch(&self) -> u8 {
        self.scratch
    }

    /// The split of document 01: its codes are intrinsic, the functions f0 to f255 are not.
    pub fn is_intrinsic_unary(&self, op: &Operation) -> bool {
        let name = op.as_str();
        UNARY.contains(&name) || matches!(name, "_call_" | "_powi_")
    }

    pub fn is_intrinsic_binary(&self, op: &Operation) -> bool {
        let name = op.as_str();
        BINARY.contains(&name) || matches!(name, "_ifelse_" | "_call_" | "_powi_mod_")
    }

    pub fn is_complex(&self) -> bool {
        false
    }

    pub fn debug_topology(&self) -> bool {
        false
    }

    pub fn compress(&self) -> bool {
        false
    }

    pub fn ultra(&self) -> bool {
        false
    }

    pub fn is_external_func(&self, _name: &str) -> bool {
        false
    }

    pub fn num_args(&self) -> usize {
        0
    }

    pub fn stable_math(&self) -> bool {
        self.stable
    }

    pub fn opt_level(&self) -> u8 {
        unimplemented!()
    }

    pub fn compact(&self) -> bool {
        unimplemented!()
    }

    pub fn to_toml(&self, _name: &str) {
        unimplemented!()
    }
}
