//! Random powers: of either sign, around the powers of two, and at both ends of the range.

use crate::generate::Random;

/// Which powers the trees of one sheet have; long ones fill the output, so a sheet keeps to one range.
#[derive(Clone, Copy)]
pub enum Range {
    /// At most 16 in size: a few operations each.
    Short,
    /// Up to 300, and around the powers of two below 2^16.
    Middle,
    /// Around all powers of two, both ends, and any.
    Long,
}

const SHORT: [i32; 18] = [0, 0, 1, 1, -1, 2, -2, 3, -3, 4, 5, -5, 6, 7, 8, -8, 15, 16];
const ENDS: [i32; 5] = [i32::MIN, i32::MIN, i32::MIN + 1, i32::MAX, i32::MAX - 1];

pub fn power(random: &mut Random, range: Range) -> i32 {
    match range {
        Range::Short => random.pick(&SHORT),
        Range::Middle => match random.within(0, 2) {
            0 => random.pick(&SHORT),
            1 => signed(random, |random| random.within(0, 300) as i64),
            _ => signed(random, |random| near_two(random, 15)),
        },
        Range::Long => match random.within(0, 3) {
            0 => random.pick(&ENDS),
            1 => random.next() as i32,
            _ => signed(random, |random| near_two(random, 31)),
        },
    }
}

/// The same, under a modulus: the lowest one is refused there.
pub fn modular(power: i32) -> i32 {
    power.max(i32::MIN + 1)
}

/// A power of two, or one less or more.
fn near_two(random: &mut Random, most: usize) -> i64 {
    (1 << random.within(0, most)) + random.pick(&[-1, 0, 0, 1])
}

fn signed(random: &mut Random, size: impl Fn(&mut Random) -> i64) -> i32 {
    let size = size(random);
    let power = if random.percent(50) { size } else { -size };
    power.clamp(i32::MIN.into(), i32::MAX.into()) as i32
}
