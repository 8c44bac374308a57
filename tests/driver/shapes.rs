//! Sheets that are hard on a compiler: as many nodes as a sheet may have, in one shape throughout.

use oracle::sheet::{Place, Sheet, Statement, Tree, MEMORY, NODE_LIMIT};

use crate::colliding;

const SHARING: u8 = 1;
const FUSED: u8 = 2;
const FIRST: u16 = 100;
/// Where the sheets keep what they work out; leaves are below it.
const RESULTS: u16 = 20_000;

const NEG: u8 = 1;
const PLUS: u8 = 1;
const MINUS: u8 = 2;

pub struct Shape {
    pub name: &'static str,
    pub file: Vec<u8>,
}

fn sheet(scratch: u8, flags: u8, trees: impl IntoIterator<Item = Tree>) -> Vec<u8> {
    let place = |index| Place { kind: MEMORY, index: RESULTS + index };
    let statements =
        (0..).zip(trees).map(|(index, tree)| Statement { place: place(index), tree }).collect();
    let sheet = Sheet { scratch, flags, step: 1, first: FIRST, statements };
    assert!(sheet.nodes() <= NODE_LIMIT);
    sheet.write(&vec![Vec::new(); sheet.statements.len() + 1])
}

fn leaf(index: usize) -> Tree {
    Tree::Variable(Place { kind: MEMORY, index: index as u16 })
}

fn call(function: u8, tree: Tree) -> Tree {
    Tree::Function1(function, Box::new(tree))
}

fn call_of_two(function: u8, left: Tree, right: Tree) -> Tree {
    Tree::Function2(function, Box::new(left), Box::new(right))
}

fn binary(code: u8, left: Tree, right: Tree) -> Tree {
    Tree::Binary(code, Box::new(left), Box::new(right))
}

fn choice(condition: usize, left: Tree, right: Tree) -> Tree {
    let place = Place { kind: MEMORY, index: condition as u16 };
    Tree::Choice(place, Box::new(left), Box::new(right))
}

/// a + b + c + …
fn leaning(leaves: impl IntoIterator<Item = Tree>) -> Tree {
    leaves.into_iter().reduce(|sum, leaf| binary(PLUS, sum, leaf)).expect("a leaf")
}

/// A full tree over so many leaves, a power of two.
fn full(code: u8, leaves: &[Tree]) -> Tree {
    match leaves {
        [leaf] => leaf.clone(),
        _ => {
            let (left, right) = leaves.split_at(leaves.len() / 2);
            binary(code, full(code, left), full(code, right))
        }
    }
}

fn chain(length: usize, tree: Tree, over: impl Fn(Tree) -> Tree) -> Tree {
    (0..length).fold(tree, |tree, _| over(tree))
}

/// f0(f1(f2(m))) of different places: three calls a statement.
pub fn nested_calls(statements: usize) -> Vec<u8> {
    sheet(8, SHARING, (0..statements).map(|i| call(0, call(1, call(2, leaf(i))))))
}

/// f0 over sums of equal leaves that differ in the last one: sixteen nodes a call.
fn calls_alike() -> Vec<u8> {
    let sum = |i: usize| leaning((0..7).map(|_| leaf(0)).chain([leaf(1 + i)]));
    sheet(8, SHARING, (0..64).map(|i| call(0, sum(i))))
}

/// Every leaf is a call of its own, on one deep chain a statement.
fn calls_inside() -> Vec<u8> {
    sheet(8, SHARING, (0..16).map(|i| chain(63, leaf(i), |tree| call(i as u8, tree))))
}

fn calls_of_two() -> Vec<u8> {
    sheet(
        8,
        SHARING,
        (0..146).map(|i| {
            call_of_two(
                0,
                call_of_two(1, leaf(i), leaf(i + 1)),
                call_of_two(2, leaf(i + 2), leaf(i)),
            )
        }),
    )
}

fn squares(index: usize) -> Tree {
    chain(63, leaf(index), |tree| Tree::Power(2, Box::new(tree)))
}

/// The longest list that a sheet can stand for, 301 operations a power; there is no room for it.
fn longest_powers(leaves: &[Tree]) -> Tree {
    match leaves {
        [leaf] => leaf.clone(),
        _ => {
            let (base, modulus) = leaves.split_at(leaves.len() / 2);
            let sides = [base, modulus].map(|half| Box::new(longest_powers(half)));
            let [base, modulus] = sides;
            Tree::ModularPower(i32::MAX, base, modulus)
        }
    }
}

fn different_leaves(count: usize) -> Vec<Tree> {
    (0..count).map(leaf).collect()
}

fn splits() -> Vec<u8> {
    let trees = (0..8).map(|i| {
        let leaves: Vec<Tree> = (0..64).map(|k| leaf(64 * i + k)).collect();
        full(MINUS, &leaves)
    });
    sheet(2, SHARING | FUSED, trees)
}

/// One tree in every statement.
fn all_shared() -> Vec<u8> {
    let leaves: Vec<Tree> = (0..8).map(leaf).collect();
    sheet(8, SHARING, (0..68).map(|_| full(PLUS, &leaves)))
}

fn none_shared() -> Vec<u8> {
    let trees = (0..68).map(|i| {
        let leaves: Vec<Tree> = (0..8).map(|k| leaf(8 * i + k)).collect();
        full(PLUS, &leaves)
    });
    sheet(8, SHARING, trees)
}

fn choices() -> Vec<u8> {
    sheet(
        8,
        SHARING | FUSED,
        (0..16).map(|i| leaning_choices((0..32).map(|k| leaf(32 * i + k)).collect())),
    )
}

fn leaning_choices(leaves: Vec<Tree>) -> Tree {
    let mut next = 0;
    leaves
        .into_iter()
        .reduce(|tree, leaf| {
            next += 1;
            choice(9_000 + next, tree, leaf)
        })
        .expect("a leaf")
}

/// f0 over sums of two places whose indexes have one sum: by a mix that is nearly linear they would be hard to tell apart.
fn calls_of_one_sum() -> Vec<u8> {
    sheet(8, SHARING, (0..256).map(|i| call(0, binary(PLUS, leaf(i), leaf(2_000 - i)))))
}

/// The shapes that are written down here, by name.
pub fn shapes() -> Vec<Shape> {
    let negated = |i| chain(63, leaf(i), |tree| Tree::Unary(NEG, Box::new(tree)));
    let sum = |i: usize| leaning((0..32).map(|k| leaf(32 * i + k)));
    let all = [
        ("768 different calls in 256 statements", nested_calls(256)),
        ("64 calls over sums of equal leaves but one", calls_alike()),
        ("16 sums of 32 places, leaning left", sheet(8, SHARING, (0..16).map(sum))),
        ("the same, sharing off", sheet(8, 0, (0..16).map(sum))),
        ("16 chains of 63 negations", sheet(8, SHARING, (0..16).map(negated))),
        ("438 calls of two", calls_of_two()),
        ("16 chains of 63 calls", calls_inside()),
        (
            "256 statements of 3 nodes",
            sheet(8, SHARING, (0..256).map(|i| binary(MINUS, leaf(i), leaf(i + 1)))),
        ),
        ("a full tree of 512 equal leaves", sheet(16, SHARING, [full(PLUS, &vec![leaf(0); 512])])),
        (
            "a full tree of 512 different leaves",
            sheet(16, SHARING, [full(PLUS, &different_leaves(512))]),
        ),
        ("16 chains of 31 choices", choices()),
        ("8 full trees split at scratch 2", splits()),
        ("68 trees all the same", all_shared()),
        ("68 trees all different", none_shared()),
        ("16 chains of 63 powers of 2", sheet(8, SHARING, (0..16).map(squares))),
        (
            "511 powers of 2^31 - 1, refused for room",
            sheet(2, 0, [longest_powers(&different_leaves(512))]),
        ),
        ("256 calls over sums of one sum of indexes", calls_of_one_sum()),
        ("511 choices with mixes that end alike", sheet(16, SHARING, [colliding::choices(512)])),
        ("504 calls of two with mixes that end alike", sheet(8, SHARING, colliding::calls(8, 63))),
    ];
    all.into_iter().map(|(name, file)| Shape { name, file }).collect()
}
