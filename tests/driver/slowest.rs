//! Looks for the slowest sheet by mutation: the one that takes ours longest so far is changed here and there, and what takes
//! longer still is kept.

mod colliding;
mod library;
mod shapes;

use std::hint::black_box;
use std::time::{Duration, Instant};

use oracle::differences::expected;
use oracle::generate::Random;
use oracle::grow::at_node;
use oracle::powers::{power, Range};
use oracle::series::{accepted, Set};
use oracle::sheet::{Place, Sheet, Tree, FLAGS, MEMORY, NODE_LIMIT};

use crate::library::compile;
use crate::shapes::shapes;

const WORDS: usize = 16_384;
/// Sheets that are kept to be changed.
const KEPT: usize = 24;
const TURNS: usize = 9;

struct Kept {
    file: Vec<u8>,
    time: Duration,
    /// The sheet that it was changed from, step by step.
    origin: &'static str,
}

struct Search {
    random: Random,
    work: Vec<u32>,
    out: Vec<u32>,
    kept: Vec<Kept>,
}

impl Search {
    fn time(&mut self, file: &[u8]) -> Duration {
        let turn = |search: &mut Search| {
            let start = Instant::now();
            black_box(compile(black_box(file), &mut search.work, &mut search.out));
            start.elapsed()
        };
        (0..TURNS).map(|_| turn(self)).min().expect("a turn")
    }

    /// Keeps a sheet that has a list, if it is slow enough.
    fn offer(&mut self, file: Vec<u8>, origin: &'static str) -> bool {
        let time = self.time(&file);
        let fastest = self.kept.last().map_or(Duration::ZERO, |kept| kept.time);
        if (self.kept.len() == KEPT && time <= fastest) || expected(&file).is_err() {
            return false;
        }
        // A second look, so that no interruption is taken for slowness.
        let time = time.min(self.time(&file));
        let place = self.kept.partition_point(|kept| kept.time >= time);
        self.kept.insert(place, Kept { file, time, origin });
        self.kept.truncate(KEPT);
        place == 0
    }

    fn leaf(&mut self) -> Tree {
        match self.random.percent(20) {
            true => Tree::Constant(self.random.within(0, 3) as u16),
            false => {
                Tree::Variable(Place { kind: MEMORY, index: self.random.within(0, 40) as u16 })
            }
        }
    }

    /// One node put over a tree, or a tree made of two.
    fn over(&mut self, tree: Tree, other: Tree) -> Tree {
        let (tree, other) = (Box::new(tree), Box::new(other));
        match self.random.within(0, 7) {
            0 => Tree::Unary(self.random.within(1, 21) as u8, tree),
            1 => Tree::Binary(self.random.within(1, 15) as u8, tree, other),
            2 => Tree::Binary(1, tree, other),
            3 => Tree::Choice(
                Place { kind: MEMORY, index: self.random.within(0, 9) as u16 },
                tree,
                other,
            ),
            4 => Tree::Function1(self.random.within(0, 3) as u8, tree),
            5 => Tree::Power(power(&mut self.random, Range::Short), tree),
            6 => Tree::ModularPower(power(&mut self.random, Range::Short), tree, other),
            _ => Tree::Function2(self.random.within(0, 3) as u8, tree, other),
        }
    }

    fn some_tree(&mut self, sheet: &Sheet) -> Tree {
        let from = self.random.within(0, sheet.statements.len() - 1);
        let mut tree = sheet.statements[from].tree.clone();
        while self.random.percent(60) {
            let sides = tree.sides();
            if sides.is_empty() {
                break;
            }
            let side = self.random.within(0, sides.len() - 1);
            tree = sides[side].clone();
        }
        tree
    }

    fn change(&mut self, sheet: &mut Sheet) {
        let other = self.some_tree(sheet);
        let leaf = self.leaf();
        let at = self.random.within(0, sheet.statements.len() - 1);
        match self.random.within(0, 8) {
            0 => sheet.scratch = self.random.within(2, 8) as u8,
            1 => sheet.flags = self.random.within(0, FLAGS.into()) as u8,
            2 => {
                let to = self.random.within(0, sheet.statements.len() - 1);
                sheet.statements.swap(at, to);
            }
            3 => sheet.statements[at].tree = other,
            4 if sheet.statements.len() > 1 => drop(sheet.statements.remove(at)),
            5 if sheet.statements.len() < 256 => {
                let mut statement = sheet.statements[at].clone();
                statement.place.index = 20_000 + self.random.within(0, 4_000) as u16;
                sheet.statements.push(statement);
            }
            _ => {
                let mut node = self.random.within(0, sheet.statements[at].tree.weight() - 1);
                let new = match self.random.within(0, 2) {
                    0 => leaf,
                    1 => other.clone(),
                    _ => self.over(other, leaf),
                };
                at_node(&mut sheet.statements[at].tree, &mut node, &mut |tree| *tree = new.clone());
            }
        }
    }

    /// One kept sheet, changed a few times.
    fn mutant(&mut self) -> Option<(Vec<u8>, &'static str)> {
        let from = self.random.within(0, self.kept.len() - 1);
        let mut sheet = Sheet::read(&self.kept[from].file).expect("a sheet");
        for _ in 0..self.random.within(1, 6) {
            self.change(&mut sheet);
        }
        let file = sheet.write(&vec![Vec::new(); sheet.statements.len() + 1]);
        let fits = sheet.nodes() <= NODE_LIMIT && Sheet::read(&file).is_ok();
        fits.then_some((file, self.kept[from].origin))
    }
}

fn main() {
    let mut arguments = std::env::args().skip(1);
    let seconds: u64 = arguments.next().map_or(600, |text| text.parse().expect("seconds"));
    let seed: u64 = arguments.next().map_or(1, |text| text.parse().expect("a seed"));
    let random = Random::new(seed, 0);
    let mut search = Search { random, work: vec![0; WORDS], out: vec![0; WORDS], kept: Vec::new() };
    for shape in shapes() {
        search.offer(shape.file, shape.name);
    }
    for (sharing, many_repeats) in [(true, false), (true, true)] {
        for file in accepted(seed, Set { nodes: NODE_LIMIT, sharing, many_repeats }, 20) {
            search.offer(file, "a sheet of the series");
        }
    }
    let end = Instant::now() + Duration::from_secs(seconds);
    let (mut tried, mut better) = (0u64, 0u64);
    while Instant::now() < end {
        if let Some((file, origin)) = search.mutant() {
            tried += 1;
            better += u64::from(search.offer(file, origin));
        }
    }
    let slowest = &search.kept[0];
    std::fs::write("tests/slowest.sheet", &slowest.file).expect("a file");
    let nodes = Sheet::read(&slowest.file).expect("a sheet").nodes();
    println!(
        "the slowest takes {:?}: {nodes} nodes, changed from: {}",
        slowest.time, slowest.origin
    );
    println!("{tried} sheets tried, {better} times a slower one");
}
