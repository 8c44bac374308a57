//! Stands in for the root of the Rust crate: the modules that compile_mir needs, and no others.

pub mod allocator;
pub mod block;
pub mod builder;
pub mod code;
pub mod compactor;
pub mod complexify;
pub mod config;
pub mod generator;
pub mod machine;
pub mod mir;
pub mod modulus;
pub mod node;
pub mod operation;
pub mod serializer;
pub mod statement;
pub mod strings;
pub mod symbol;
pub mod topology;
pub mod utils;
