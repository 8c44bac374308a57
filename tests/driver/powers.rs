//! Every power from -300 to 300 and around each power of two, under both tags, over a place and over a sum; under moduli
//! narrower than the base, as wide and wider.

use std::collections::BTreeSet;

use oracle::sheet::{Place, Tree, MEMORY};

const SMALL: i64 = 300;
const PLUS: u8 = 1;

/// Those from -300 to 300, and 2^k and 2^k - 1 of both signs, as far as they are powers.
fn powers() -> BTreeSet<i32> {
    let near_two = (0..=31).flat_map(|k| [1i64 << k, (1 << k) - 1]);
    let both = near_two.flat_map(|size| [size, -size]);
    (-SMALL..=SMALL).chain(both).filter_map(|power| power.try_into().ok()).collect()
}

fn place(index: u16) -> Tree {
    Tree::Variable(Place { kind: MEMORY, index })
}

fn sum(left: Tree, right: Tree) -> Tree {
    Tree::Binary(PLUS, Box::new(left), Box::new(right))
}

/// The trees of one power; the lowest is refused under a modulus.
fn raised(power: i32) -> Vec<Tree> {
    let pair = |first| sum(place(first), place(first + 1));
    let bases = [place(0), pair(0)];
    let moduli = [place(4), pair(4), sum(pair(4), pair(6))];
    let mut trees: Vec<Tree> =
        bases.iter().map(|base| Tree::Power(power, Box::new(base.clone()))).collect();
    for base in &bases {
        trees.extend(moduli.iter().map(|modulus| {
            Tree::ModularPower(power, Box::new(base.clone()), Box::new(modulus.clone()))
        }));
    }
    trees
}

pub fn trees() -> Vec<Tree> {
    powers().into_iter().flat_map(raised).collect()
}
