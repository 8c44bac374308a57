//! Stands in for complexify.rs: complex mode is never reached.

use super::generator::Generator;
use super::utils::Reg;

pub struct Complexifier;

macro_rules! unreached {
    ($($name:ident)*) => { $(
        pub fn $name(_: &mut dyn Generator, _: Reg, _: Reg, _: Reg, _: Reg, _: Reg, _: Reg) {
            unimplemented!()
        }
    )* };
}

impl Complexifier {
    unreached!(generic_complex_plus generic_complex_minus);
    unreached!(generic_complex_times generic_complex_divide);
}
