//! Random trees: mixed, chains, full trees, and repeats with sides exchanged.

use crate::differences::commutes;
use crate::generate::Random;
use crate::powers::modular;
use crate::sheet::{Place, Tree, DEPTH_LIMIT};

#[derive(Clone, Copy)]
pub enum One {
    Unary(u8),
    Power(i32),
}

#[derive(Clone, Copy)]
pub enum Two {
    Binary(u8),
    /// Under a modulus.
    Power(i32),
}

/// What the trees of one sheet are made of; small sets make repeats likely.
pub struct Palette {
    pub leaves: Vec<Tree>,
    pub conditions: Vec<Place>,
    pub functions: Vec<u8>,
    pub unary: Vec<One>,
    pub binary: Vec<Two>,
    /// Those among them.
    pub powers: Vec<i32>,
    pub repeat_percent: usize,
    /// Weights of unary, binary, choice, function of one, function of two.
    pub forms: [usize; 5],
}

#[derive(Clone, Copy)]
enum Form {
    Unary,
    Binary,
    Choice,
    Function1,
    Function2,
}

#[derive(Clone, Copy)]
enum Shape {
    Mixed,
    Chain,
    Full,
}

/// How a node's room goes to its two sides.
#[derive(Clone, Copy)]
enum Split {
    Even,
    Any,
    Left,
    Right,
}

#[derive(Clone, Copy)]
enum Again {
    Same,
    Commuted,
    Exchanged,
    Touched,
}

const SHAPES: [(usize, Shape); 3] = [(74, Shape::Mixed), (10, Shape::Chain), (16, Shape::Full)];
const SPLITS: [(usize, Split); 4] =
    [(40, Split::Even), (30, Split::Any), (15, Split::Left), (15, Split::Right)];
const AGAIN: [(usize, Again); 4] =
    [(40, Again::Same), (35, Again::Commuted), (15, Again::Exchanged), (10, Again::Touched)];
const WHOLE_REPEAT_PERCENT: usize = 35;
const DEEPEST_CHAIN_PERCENT: usize = 30;
const FULL_UNARY_PERCENT: usize = 10;
const KEPT: usize = 64;

struct Made {
    tree: Tree,
    weight: usize,
    depth: usize,
}

pub struct Grower<'a> {
    pub random: &'a mut Random,
    palette: Palette,
    scratch: usize,
    made: Vec<Made>,
}

impl Grower<'_> {
    pub fn new(random: &mut Random, palette: Palette, scratch: usize) -> Grower<'_> {
        Grower { random, palette, scratch, made: Vec::new() }
    }

    /// The tree of one statement, of at most `room` nodes.
    pub fn statement(&mut self, room: usize) -> Tree {
        if self.random.percent(WHOLE_REPEAT_PERCENT) {
            if let Some(tree) = self.again(room, DEPTH_LIMIT) {
                return tree;
            }
        }
        match self.random.weighted(&SHAPES) {
            Shape::Mixed => self.grow(room, DEPTH_LIMIT),
            Shape::Chain => {
                let longest = room.min(DEPTH_LIMIT);
                let deepest = self.random.percent(DEEPEST_CHAIN_PERCENT);
                let depth = if deepest { longest } else { self.random.within(1, longest) };
                self.chain(room, depth)
            }
            Shape::Full => {
                let highest = (room + 1).ilog2() as usize;
                let near = self.random.within(self.scratch - 1, self.scratch + 3);
                self.full(near.min(highest), room)
            }
        }
    }

    fn leaf(&mut self) -> Tree {
        let last = self.palette.leaves.len() - 1;
        self.palette.leaves[self.random.within(0, last)].clone()
    }

    fn grow(&mut self, room: usize, depth: usize) -> Tree {
        if room == 1 || depth == 1 {
            return self.leaf();
        }
        if self.random.percent(self.palette.repeat_percent) {
            if let Some(tree) = self.again(room, depth) {
                return tree;
            }
        }
        let form = if room == 2 { self.single_form() } else { self.form() };
        let tree = match form {
            Form::Unary | Form::Function1 => {
                let arg = self.grow(room - 1, depth - 1);
                self.single(form, arg)
            }
            _ => {
                let (left, right) = self.split(room - 1);
                let left = self.grow(left, depth - 1);
                let right = self.grow(right, depth - 1);
                self.double(form, left, right)
            }
        };
        self.keep(&tree);
        tree
    }

    fn form(&mut self) -> Form {
        let [unary, binary, choice, one, two] = self.palette.forms;
        self.random.weighted(&[
            (unary, Form::Unary),
            (binary, Form::Binary),
            (choice, Form::Choice),
            (one, Form::Function1),
            (two, Form::Function2),
        ])
    }

    fn single_form(&mut self) -> Form {
        let [unary, _, _, one, _] = self.palette.forms;
        self.random.weighted(&[(unary, Form::Unary), (one, Form::Function1)])
    }

    fn double_form(&mut self) -> Form {
        let [_, binary, choice, _, two] = self.palette.forms;
        self.random.weighted(&[
            (binary, Form::Binary),
            (choice, Form::Choice),
            (two, Form::Function2),
        ])
    }

    fn single(&mut self, form: Form, arg: Tree) -> Tree {
        let arg = Box::new(arg);
        match form {
            Form::Function1 => Tree::Function1(self.random.pick(&self.palette.functions), arg),
            _ => match self.random.pick(&self.palette.unary) {
                One::Unary(code) => Tree::Unary(code, arg),
                One::Power(power) => Tree::Power(power, arg),
            },
        }
    }

    fn double(&mut self, form: Form, left: Tree, right: Tree) -> Tree {
        let (left, right) = (Box::new(left), Box::new(right));
        match form {
            Form::Choice => Tree::Choice(self.random.pick(&self.palette.conditions), left, right),
            Form::Function2 => {
                Tree::Function2(self.random.pick(&self.palette.functions), left, right)
            }
            _ => match self.random.pick(&self.palette.binary) {
                Two::Binary(code) => Tree::Binary(code, left, right),
                Two::Power(power) => Tree::ModularPower(power, left, right),
            },
        }
    }

    /// Room for two sides, at least one node each.
    fn split(&mut self, room: usize) -> (usize, usize) {
        let left = match self.random.weighted(&SPLITS) {
            Split::Even => room / 2,
            Split::Any => self.random.within(1, room - 1),
            Split::Left => room - self.random.within(1, (room - 1).min(3)),
            Split::Right => self.random.within(1, (room - 1).min(3)),
        };
        (left, room - left)
    }

    fn keep(&mut self, tree: &Tree) {
        let made = Made { tree: tree.clone(), weight: tree.weight(), depth: tree.depth() };
        if self.made.len() < KEPT {
            self.made.push(made);
        } else {
            let at = self.random.within(0, KEPT - 1);
            self.made[at] = made;
        }
    }

    /// A tree made before that fits and fills a quarter of the room, the same or changed.
    fn again(&mut self, room: usize, depth: usize) -> Option<Tree> {
        let fits =
            |made: &&Made| made.weight <= room && made.depth <= depth && made.weight * 4 >= room;
        let fitting: Vec<&Made> = self.made.iter().filter(fits).collect();
        if fitting.is_empty() {
            return None;
        }
        let chosen = fitting[self.random.within(0, fitting.len() - 1)];
        let (mut tree, nodes) = (chosen.tree.clone(), chosen.weight);
        let mut at = self.random.within(0, nodes - 1);
        match self.random.weighted(&AGAIN) {
            Again::Same => {}
            Again::Commuted => commute(self.random, &mut tree),
            Again::Exchanged => at_node(&mut tree, &mut at, &mut exchange),
            Again::Touched => {
                let leaf = self.leaf();
                let power = self.other_power();
                at_node(&mut tree, &mut at, &mut |node| touch(node, &leaf, power));
            }
        }
        Some(tree)
    }

    fn other_power(&mut self) -> Option<i32> {
        match self.palette.powers.len() {
            0 => None,
            count => Some(self.palette.powers[self.random.within(0, count - 1)]),
        }
    }

    /// A tree of exactly this depth, leaves hanging from one path.
    pub fn chain(&mut self, room: usize, depth: usize) -> Tree {
        let mut tree = self.leaf();
        let mut spare = room - depth;
        for _ in 1..depth {
            let form = if spare == 0 { self.single_form() } else { self.form() };
            tree = match form {
                Form::Unary | Form::Function1 => self.single(form, tree),
                _ => {
                    spare -= 1;
                    let leaf = self.leaf();
                    let (left, right) =
                        if self.random.percent(50) { (tree, leaf) } else { (leaf, tree) };
                    self.double(form, left, right)
                }
            };
            self.keep(&tree);
        }
        tree
    }

    /// A tree with two full sides at every level, so its Ershov number is its height.
    fn full(&mut self, height: usize, room: usize) -> Tree {
        if height == 1 {
            return self.leaf();
        }
        let least = (1 << height) - 1;
        if room > least && self.random.percent(FULL_UNARY_PERCENT) {
            let arg = self.full(height, room - 1);
            return self.single(Form::Unary, arg);
        }
        let form = self.double_form();
        let left = self.full(height - 1, (room - 1) / 2);
        let right = self.full(height - 1, (room - 1) / 2);
        let tree = self.double(form, left, right);
        self.keep(&tree);
        tree
    }

    /// A tree of exactly this many nodes, as flat as can be.
    pub fn exact(&mut self, nodes: usize) -> Tree {
        match nodes {
            1 => self.leaf(),
            2 => {
                let leaf = self.leaf();
                self.single(Form::Unary, leaf)
            }
            _ => {
                let left = self.exact((nodes - 1) / 2);
                let right = self.exact(nodes - 1 - (nodes - 1) / 2);
                self.double(Form::Binary, left, right)
            }
        }
    }
}

/// Another leaf for a leaf, another power for a power.
fn touch(node: &mut Tree, leaf: &Tree, power: Option<i32>) {
    match (node, power) {
        (Tree::Power(old, _), Some(power)) => *old = power,
        (Tree::ModularPower(old, _, _), Some(power)) => *old = modular(power),
        (node, _) if node.sides().is_empty() => *node = leaf.clone(),
        _ => {}
    }
}

/// Exchanges the sides of commuting operations, each with an even chance.
fn commute(random: &mut Random, tree: &mut Tree) {
    if commutes(tree) && random.percent(50) {
        exchange(tree);
    }
    for side in tree.sides_mut() {
        commute(random, side);
    }
}

/// Exchanges a node's sides, whether or not its operation commutes.
pub fn exchange(tree: &mut Tree) {
    if let [left, right] = &mut tree.sides_mut()[..] {
        std::mem::swap(*left, *right);
    }
}

/// Does something to the node that is `at` nodes after this one in prefix order.
pub fn at_node(tree: &mut Tree, at: &mut usize, act: &mut dyn FnMut(&mut Tree)) {
    if *at == 0 {
        act(tree);
        *at = usize::MAX;
        return;
    }
    *at -= 1;
    for side in tree.sides_mut() {
        at_node(side, at, act);
    }
}
