//! Trees at the limits: chains, full trees and trees of an exact number of nodes, made of few parts.

use crate::generate::{place, Random};
use crate::powers::{modular, power, Range};
use crate::sheet::{Place, Tree, DEPTH_LIMIT, MEMORY, PARAMETER, STACK};

#[derive(Clone, Copy)]
enum One {
    Unary(u8),
    Power(i32),
    Function(u8),
}

#[derive(Clone, Copy)]
enum Two {
    Binary(u8),
    Power(i32),
    Choice(Place),
    Function(u8),
}

/// Where a chain goes on.
#[derive(Clone, Copy)]
pub enum Lean {
    Left,
    Right,
    Either,
    /// One node a level: no side branches.
    Single,
}

pub const LEANS: [Lean; 4] = [Lean::Left, Lean::Right, Lean::Either, Lean::Single];

/// What the trees of one sheet are made of; with one of each, all trees of a shape are the same.
pub struct Parts {
    leaves: Vec<Tree>,
    ones: Vec<One>,
    twos: Vec<Two>,
}

const ALONE_PERCENT: usize = 40;
const SINGLE_PERCENT: usize = 15;
const PLACES: [u8; 3] = [STACK, MEMORY, PARAMETER];

impl Parts {
    pub fn any(random: &mut Random, first: u16) -> Parts {
        Parts {
            leaves: few(random, |random| leaf(random, first)),
            ones: few(random, one),
            twos: few(random, |random| two(random, first)),
        }
    }

    /// Powers only, some of them as long as can be.
    pub fn powers(random: &mut Random, first: u16) -> Parts {
        Parts {
            leaves: few(random, |random| leaf(random, first)),
            ones: few(random, |random| One::Power(power(random, Range::Long))),
            twos: few(random, |random| Two::Power(modular(power(random, Range::Long)))),
        }
    }

    /// Functions only, so that every node but the leaves is a call.
    pub fn calls(random: &mut Random, first: u16) -> Parts {
        Parts {
            leaves: few(random, |random| leaf(random, first)),
            ones: few(random, |random| One::Function(random.pick(&[0, 255]))),
            twos: few(random, |random| Two::Function(random.pick(&[0, 255]))),
        }
    }

    pub fn leaf(&self, random: &mut Random) -> Tree {
        self.leaves[random.within(0, self.leaves.len() - 1)].clone()
    }

    pub fn single(&self, random: &mut Random, arg: Tree) -> Tree {
        let arg = Box::new(arg);
        match random.pick(&self.ones) {
            One::Unary(code) => Tree::Unary(code, arg),
            One::Power(power) => Tree::Power(power, arg),
            One::Function(function) => Tree::Function1(function, arg),
        }
    }

    pub fn double(&self, random: &mut Random, left: Tree, right: Tree) -> Tree {
        let (left, right) = (Box::new(left), Box::new(right));
        match random.pick(&self.twos) {
            Two::Binary(code) => Tree::Binary(code, left, right),
            Two::Power(power) => Tree::ModularPower(power, left, right),
            Two::Choice(condition) => Tree::Choice(condition, left, right),
            Two::Function(function) => Tree::Function2(function, left, right),
        }
    }

    /// A tree of exactly this depth, leaves hanging from one path.
    pub fn chain(&self, random: &mut Random, depth: usize, lean: Lean) -> Tree {
        let mut tree = self.leaf(random);
        for _ in 1..depth {
            let leaf = self.leaf(random);
            tree = match lean {
                Lean::Single => self.single(random, tree),
                Lean::Left => self.double(random, tree, leaf),
                Lean::Right => self.double(random, leaf, tree),
                Lean::Either if random.percent(50) => self.double(random, tree, leaf),
                Lean::Either => self.double(random, leaf, tree),
            };
        }
        tree
    }

    /// Two chains of one depth less under one node.
    pub fn fork(&self, random: &mut Random, depth: usize, leans: [Lean; 2]) -> Tree {
        let [left, right] = leans.map(|lean| self.chain(random, depth - 1, lean));
        self.double(random, left, right)
    }

    /// A tree with two full sides at every level.
    pub fn full(&self, random: &mut Random, height: usize) -> Tree {
        match height {
            1 => self.leaf(random),
            _ => {
                let left = self.full(random, height - 1);
                let right = self.full(random, height - 1);
                self.double(random, left, right)
            }
        }
    }

    /// A tree of exactly this many nodes and at most 64 levels.
    pub fn exact(&self, random: &mut Random, nodes: usize) -> Tree {
        self.exact_within(random, nodes, DEPTH_LIMIT)
    }

    fn exact_within(&self, random: &mut Random, nodes: usize, depth: usize) -> Tree {
        if nodes == 1 {
            return self.leaf(random);
        }
        // An even split needs one level more than the logarithm, any other at most one more again.
        let tight = depth <= nodes.ilog2() as usize + 2;
        if nodes == 2 || !tight && random.percent(SINGLE_PERCENT) {
            let arg = self.exact_within(random, nodes - 1, depth - 1);
            return self.single(random, arg);
        }
        let others = nodes - 1;
        let left = match random.within(0, 3) {
            _ if tight => others / 2,
            0 => 1,
            1 => others - 1,
            2 => others / 2,
            _ => random.within(1, others - 1),
        };
        let left_side = self.exact_within(random, left, depth - 1);
        let right_side = self.exact_within(random, others - left, depth - 1);
        self.double(random, left_side, right_side)
    }
}

fn few<T>(random: &mut Random, make: impl Fn(&mut Random) -> T) -> Vec<T> {
    let count = if random.percent(ALONE_PERCENT) { 1 } else { random.within(2, 5) };
    (0..count).map(|_| make(random)).collect()
}

fn leaf(random: &mut Random, first: u16) -> Tree {
    match random.percent(30) {
        true => Tree::Constant(random.pick(&[0, 1, 255, 256, 65_535])),
        false => Tree::Variable(place(random, first, &PLACES)),
    }
}

fn one(random: &mut Random) -> One {
    match random.within(0, 9) {
        0..=5 => One::Unary(random.within(1, 21) as u8),
        6 => One::Power(power(random, Range::Short)),
        7 => One::Power(power(random, Range::Long)),
        _ => One::Function(random.pick(&[0, 1, 255])),
    }
}

fn two(random: &mut Random, first: u16) -> Two {
    match random.within(0, 9) {
        0..=5 => Two::Binary(random.within(1, 15) as u8),
        6 => Two::Power(power(random, Range::Short)),
        7 => Two::Choice(place(random, first, &PLACES)),
        _ => Two::Function(random.pick(&[0, 1, 255])),
    }
}
