//! Every tree of up to five nodes over one alphabet, and of six and seven over a smaller one, without powers; every power,
//! and every tree of up to six nodes with powers among its operations; with scratch count 2 and 3 and all flags.

use oracle::grow::{exchange, One, Two};
use oracle::sheet::{Place, Sheet, Statement, Tree, MEMORY, STACK};

use crate::powers;

/// What trees are made of besides f0 of one and of two.
struct Alphabet {
    leaves: &'static [Tree],
    unary: &'static [One],
    binary: &'static [Two],
    choice: Option<Place>,
}

const M0: Place = Place { kind: MEMORY, index: 0 };
const M1: Place = Place { kind: MEMORY, index: 1 };
const S0: Place = Place { kind: STACK, index: 0 };

/// neg is one operation, cube and frac expand. plus commutes and fuses on both sides, minus on the right,
/// rem expands, eq commutes and does not fuse.
const WIDE: Alphabet = Alphabet {
    leaves: &[Tree::Constant(0), Tree::Variable(M0), Tree::Variable(M1), Tree::Variable(S0)],
    unary: &[One::Unary(1), One::Unary(10), One::Unary(16)],
    binary: &[Two::Binary(1), Two::Binary(2), Two::Binary(5), Two::Binary(10)],
    choice: Some(M0),
};
const WIDE_NODES: usize = 5;

/// A part of WIDE; seven nodes are the fewest that check 8 refuses.
const NARROW: Alphabet = Alphabet {
    leaves: &[Tree::Constant(0), Tree::Variable(M0)],
    unary: &[],
    binary: &[Two::Binary(1), Two::Binary(2)],
    choice: None,
};
const NARROW_NODES: usize = 7;

/// A negative power, which minds flag 4, a positive one under a modulus, and a sum.
const RAISED: Alphabet = Alphabet {
    leaves: &[Tree::Constant(0), Tree::Variable(M0)],
    unary: &[One::Power(-2)],
    binary: &[Two::Power(3), Two::Binary(1)],
    choice: None,
};
const RAISED_NODES: usize = 6;

const SCRATCH: [u8; 2] = [2, 3];
/// Sharing and fused; with flag 4, which is for powers alone.
const FLAGS: usize = 4;
const POWER_FLAGS: usize = 8;
/// One statement of the tree; or the tree, the tree with all sides exchanged, and the tree again.
const FORMS: usize = 2;

pub struct Exhaustive {
    trees: Vec<Tree>,
    flags: usize,
}

impl Exhaustive {
    pub fn without_powers() -> Exhaustive {
        let mut trees = WIDE.trees(WIDE_NODES).concat();
        trees.extend(NARROW.trees(NARROW_NODES)[WIDE_NODES + 1..].concat());
        Exhaustive { trees, flags: FLAGS }
    }

    pub fn with_powers() -> Exhaustive {
        let mut trees = powers::trees();
        let small = RAISED.trees(RAISED_NODES).concat();
        trees.extend(small.into_iter().filter(|tree| tree.count(Tree::is_power) > 0));
        Exhaustive { trees, flags: POWER_FLAGS }
    }

    pub fn count(&self) -> u64 {
        (self.trees.len() * FORMS * SCRATCH.len() * self.flags) as u64
    }

    /// The file of one of the sheets.
    pub fn file(&self, number: u64) -> Vec<u8> {
        let mut rest = number as usize;
        let mut digit = |base: usize| {
            let digit = rest % base;
            rest /= base;
            digit
        };
        let (form, flags, scratch) = (digit(FORMS), digit(self.flags), digit(SCRATCH.len()));
        let tree = &self.trees[rest];
        let trees = match form {
            0 => vec![tree.clone()],
            _ => vec![tree.clone(), exchanged(tree), tree.clone()],
        };
        let sheet = Sheet {
            scratch: SCRATCH[scratch],
            flags: flags as u8,
            step: 1,
            first: 10,
            statements: trees.into_iter().enumerate().map(statement).collect(),
        };
        sheet.write(&vec![Vec::new(); sheet.statements.len() + 1])
    }
}

fn statement((number, tree): (usize, Tree)) -> Statement {
    Statement { place: Place { kind: MEMORY, index: 100 + number as u16 }, tree }
}

impl Alphabet {
    /// The trees of up to so many nodes, by their number of nodes.
    fn trees(&self, most: usize) -> Vec<Vec<Tree>> {
        let mut by_size = vec![Vec::new(), self.leaves.to_vec()];
        for nodes in 2..=most {
            let mut found: Vec<Tree> =
                by_size[nodes - 1].iter().flat_map(|arg| self.over_one(arg)).collect();
            for left in 1..nodes - 1 {
                for (left, right) in pairs(&by_size[left], &by_size[nodes - 1 - left]) {
                    found.extend(self.over_two(left, right));
                }
            }
            by_size.push(found);
        }
        by_size
    }

    fn over_one(&self, arg: &Tree) -> Vec<Tree> {
        let arg = || Box::new(arg.clone());
        let single = |one: &One| match *one {
            One::Unary(code) => Tree::Unary(code, arg()),
            One::Power(power) => Tree::Power(power, arg()),
        };
        let mut found: Vec<Tree> = self.unary.iter().map(single).collect();
        found.push(Tree::Function1(0, arg()));
        found
    }

    fn over_two(&self, left: &Tree, right: &Tree) -> Vec<Tree> {
        let (left, right) = (|| Box::new(left.clone()), || Box::new(right.clone()));
        let double = |two: &Two| match *two {
            Two::Binary(code) => Tree::Binary(code, left(), right()),
            Two::Power(power) => Tree::ModularPower(power, left(), right()),
        };
        let mut found: Vec<Tree> = self.binary.iter().map(double).collect();
        found.extend(self.choice.map(|condition| Tree::Choice(condition, left(), right())));
        found.push(Tree::Function2(0, left(), right()));
        found
    }
}

fn pairs<'a>(lefts: &'a [Tree], rights: &'a [Tree]) -> impl Iterator<Item = (&'a Tree, &'a Tree)> {
    lefts.iter().flat_map(move |left| rights.iter().map(move |right| (left, right)))
}

/// The tree with the sides of every node exchanged.
fn exchanged(tree: &Tree) -> Tree {
    let mut tree = tree.clone();
    exchange(&mut tree);
    for side in tree.sides_mut() {
        *side = exchanged(side);
    }
    tree
}
