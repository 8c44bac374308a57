//! Sheets that are hard on the search for same trees: all mixes begin alike, so that every search passes as many others as can be
//! arranged. The mix is that of crate mix, and is worked out here once more.

use oracle::sheet::{Place, Tree, MEMORY, PARAMETER};

/// A search tells mixes apart by their bits, the lowest first; so many of them are alike.
const ALIKE: u32 = 15;
const ALIKE_CALLS: u32 = 12;

const CONSTANT: u64 = 1;
const VARIABLE: u64 = 2;
const CHOICE: u64 = 5;
const FUNCTION2: u64 = 7;
const TEMPORARY: u64 = 11;

fn seed(tag: u64, word: u64) -> u64 {
    (tag << 32) + word
}

fn stirred(x: u64) -> u64 {
    let h = x.wrapping_mul(x.wrapping_add(x).wrapping_add(1));
    h.wrapping_add(h >> 32).wrapping_mul(14_029_467_366_897_019_727)
}

fn word(place: Place) -> u64 {
    u64::from(place.index) + 65_536 * u64::from(place.kind)
}

/// Of an operation over two trees whose sides may not be exchanged.
fn over(seed: u64, left: u64, right: u64) -> u64 {
    stirred(seed.wrapping_add(left.wrapping_mul(4_294_967_299)).wrapping_add(right))
}

fn ends_alike(mix: u64, bits: u32) -> bool {
    mix % (1 << bits) == 0
}

fn places(kind: u8) -> impl Iterator<Item = Place> {
    (0..=u16::MAX).map(move |index| Place { kind, index })
}

fn variable(place: Place) -> (Tree, u64) {
    (Tree::Variable(place), stirred(seed(VARIABLE, word(place))))
}

/// A choice between two trees, its condition chosen so that its mix ends like all others; without one the sides change places.
fn choice((left, l): (Tree, u64), (right, r): (Tree, u64)) -> (Tree, u64) {
    let mix = |place: &Place| over(seed(CHOICE, word(*place)), l, r);
    let found = places(MEMORY).chain(places(PARAMETER)).find(|place| ends_alike(mix(place), ALIKE));
    match found {
        Some(place) => (Tree::Choice(place, Box::new(left), Box::new(right)), mix(&place)),
        None => choice((right, r), (left, l)),
    }
}

/// A full tree of choices over so many leaves, of which eight differ.
pub fn choices(leaves: usize) -> Tree {
    let mut row: Vec<(Tree, u64)> = (0..leaves)
        .map(|leaf| {
            let index = (leaf % 8) as u16;
            (Tree::Constant(index), stirred(seed(CONSTANT, index.into())))
        })
        .collect();
    while row.len() > 1 {
        let mut sides = row.into_iter();
        let mut above = Vec::new();
        while let (Some(left), Some(right)) = (sides.next(), sides.next()) {
            above.push(choice(left, right));
        }
        row = above;
    }
    row.remove(0).0
}

/// So many calls f0(p, f0(p, ...)), the innermost over a place of memory, in each statement. A call's argument that is a call is seen
/// as its temporary; the parameters are so chosen that the calls' mixes end alike.
pub fn calls(statements: usize, depth: usize) -> Vec<Tree> {
    let mut temporaries = 0..;
    let mut statement = |index| {
        let start = variable(Place { kind: MEMORY, index });
        let call = |(tree, mix): (Tree, u64), temporary: u64| {
            let chosen = |place: &Place| {
                ends_alike(over(seed(FUNCTION2, 0), variable(*place).1, mix), ALIKE_CALLS)
            };
            let place = places(PARAMETER).find(chosen).expect("a parameter");
            let tree = Tree::Function2(0, Box::new(variable(place).0), Box::new(tree));
            (tree, stirred(seed(TEMPORARY, temporary)))
        };
        temporaries.by_ref().take(depth).fold(start, call).0
    };
    (0..statements as u16).map(&mut statement).collect()
}
