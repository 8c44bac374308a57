//! The oracle as a library: sheets to lists through the Rust, and random sheets.

pub mod class;
pub mod compile;
pub mod damage;
pub mod differences;
pub mod extreme;
pub mod generate;
pub mod grow;
pub mod hostile;
pub mod powers;
pub mod series;
pub mod sheet;
pub mod text;

// The Rust keeps much that compile_mir never reaches.
#[allow(warnings)]
pub mod rust;
