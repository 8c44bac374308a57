//! Random sheets: every choice comes from the seed, the sheet's number and its kind.

use crate::damage;
use crate::grow::{Grower, One, Palette, Two};
use crate::hostile;
use crate::powers::{modular, power, Range};
use crate::sheet::{Place, Sheet, Statement, Tree, FILE_LIMIT, MEMORY, NODE_LIMIT, PARAMETER};
use crate::sheet::{STACK, STATEMENT_LIMIT};

#[derive(Clone, Copy, PartialEq, Eq)]
pub enum Kind {
    /// Passes checks 1 to 7 and 11; mostly 5 to 60 nodes, with a tail up to 1,024.
    Valid,
    /// At most 24 nodes and 3 statements, over few leaves.
    Small,
    /// 256 to 1,024 nodes.
    Large,
    /// A valid sheet with one to four damages.
    Damaged,
    /// Noise, broken tables, and sheets at or one past each limit.
    Hostile,
}

impl Kind {
    pub fn named(name: &str) -> Option<Kind> {
        match name {
            "valid" => Some(Kind::Valid),
            "small" => Some(Kind::Small),
            "large" => Some(Kind::Large),
            "damaged" => Some(Kind::Damaged),
            "hostile" => Some(Kind::Hostile),
            _ => None,
        }
    }
}

/// The file of one sheet.
pub fn generate(seed: u64, number: u64, kind: Kind) -> Vec<u8> {
    let mut random = Random::new(seed, number ^ (kind as u64) << 60);
    match kind {
        Kind::Damaged => damage::damaged(&mut random),
        Kind::Hostile => hostile::hostile(&mut random),
        _ => {
            let sheet = valid(&mut random, kind);
            write(&mut random, &sheet, kind)
        }
    }
}

/// splitmix64.
pub struct Random(u64);

impl Random {
    pub fn new(seed: u64, number: u64) -> Random {
        let mut random = Random(seed);
        Random(random.next() ^ number.wrapping_mul(0xd6e8_feb8_6659_fd93))
    }

    /// Numbers apart from those that follow here.
    fn aside(&self) -> Random {
        Random(self.0 ^ 0x706f_7765_7273)
    }

    pub fn next(&mut self) -> u64 {
        self.0 = self.0.wrapping_add(0x9e37_79b9_7f4a_7c15);
        let mut mixed = self.0;
        mixed = (mixed ^ (mixed >> 30)).wrapping_mul(0xbf58_476d_1ce4_e5b9);
        mixed = (mixed ^ (mixed >> 27)).wrapping_mul(0x94d0_49bb_1331_11eb);
        mixed ^ (mixed >> 31)
    }

    /// A number from low to high, both included.
    pub fn within(&mut self, low: usize, high: usize) -> usize {
        low + (self.next() % (high - low + 1) as u64) as usize
    }

    pub fn percent(&mut self, chance: usize) -> bool {
        self.within(0, 99) < chance
    }

    pub fn pick<T: Copy>(&mut self, choices: &[T]) -> T {
        choices[self.within(0, choices.len() - 1)]
    }

    /// One of the choices, each as likely as its weight says.
    pub fn weighted<T: Copy>(&mut self, table: &[(usize, T)]) -> T {
        let total: usize = table.iter().map(|(weight, _)| weight).sum();
        let mut left = self.within(0, total - 1);
        for (weight, choice) in table {
            if left < *weight {
                return *choice;
            }
            left -= weight;
        }
        unreachable!("a weight within the total")
    }

    /// A number from one of the weighted ranges.
    pub fn ranged(&mut self, table: &[(usize, (usize, usize))]) -> usize {
        let (low, high) = self.weighted(table);
        self.within(low, high)
    }

    pub fn bytes(&mut self, count: usize) -> Vec<u8> {
        (0..count).map(|_| self.next() as u8).collect()
    }
}

type Ranges = &'static [(usize, (usize, usize))];

/// Each table has weights out of 100 and inclusive ranges.
const SCRATCH: Ranges = &[(60, (2, 4)), (25, (5, 8)), (14, (9, 31)), (1, (32, 32))];
const FIRST: Ranges = &[
    (12, (0, 0)),
    (8, (1, 1)),
    (40, (2, 20)),
    (15, (21, 65_000)),
    (10, (65_001, 65_534)),
    (15, (65_535, 65_535)),
];
const SHARING_PERCENT: usize = 75;
const FUSED_PERCENT: usize = 50;
const STABLE_PERCENT: usize = 50;
/// Sheets with powers among their operations, and how many to begin with.
const POWERS_PERCENT: usize = 70;
const POWERS: Ranges = &[(25, (1, 2)), (45, (3, 6)), (30, (7, 16))];
const POWER_RANGES: [(usize, Range); 3] =
    [(55, Range::Short), (30, Range::Middle), (15, Range::Long)];
const LARGE_POWER_RANGES: [(usize, Range); 2] = [(92, Range::Short), (8, Range::Middle)];
const VALID_NODES: Ranges =
    &[(70, (5, 60)), (18, (61, 200)), (8, (201, 700)), (3, (701, 1_023)), (1, (1_024, 1_024))];
const SMALL_NODES: Ranges = &[(8, (1, 6)), (30, (7, 16)), (62, (17, 24))];
const LARGE_NODES: Ranges = &[(60, (256, 700)), (35, (701, 1_023)), (5, (1_024, 1_024))];
const VALID_STATEMENTS: Ranges =
    &[(2, (0, 0)), (80, (1, 6)), (13, (7, 40)), (4, (41, 255)), (1, (256, 256))];
const SMALL_STATEMENTS: Ranges = &[(25, (1, 1)), (45, (2, 2)), (30, (3, 3))];
const LARGE_STATEMENTS: Ranges = &[(60, (1, 12)), (30, (13, 60)), (8, (61, 255)), (2, (256, 256))];
const VALID_LEAVES: Ranges = &[(40, (2, 3)), (40, (4, 8)), (20, (9, 24))];
const SMALL_LEAVES: Ranges = &[(20, (1, 1)), (60, (2, 3)), (20, (4, 5))];
const INDEX: Ranges = &[(70, (0, 9)), (10, (250, 260)), (5, (65_530, 65_535)), (15, (0, 65_535))];
/// Chance in a hundred that a side repeats an earlier tree; one of the four for the whole sheet.
const REPEATS: [usize; 4] = [0, 15, 35, 60];
const SMALL_REPEATS: [usize; 4] = [0, 40, 60, 80];
/// Large sheets of rem at scratch count 2 have the longest lists (check 10).
const LONG_LIST_PERCENT: usize = 10;
const LONG_NODES: Ranges = &[(60, (780, 900)), (40, (901, 1_024))];
const GAPS_PERCENT: usize = 25;
const FULL_FILE_PERCENT: usize = 1;
const APART_PERCENT: usize = 50;

/// How many nodes a sheet has at most and at least, and how many statements to begin with.
struct Size {
    most: usize,
    least: usize,
    statements: usize,
}

/// A sheet that passes checks 1 to 7 and 11. What powers take is drawn aside, so that a sheet that is to have none is no
/// other for their sake.
pub fn valid(random: &mut Random, kind: Kind) -> Sheet {
    let mut aside = random.aside();
    let long = kind == Kind::Large && random.percent(LONG_LIST_PERCENT);
    let mut sheet = Sheet {
        scratch: if long { 2 } else { random.ranged(SCRATCH) as u8 },
        flags: flags(random) + 4 * u8::from(aside.percent(STABLE_PERCENT)),
        step: random.within(1, 8) as u8,
        first: random.ranged(FIRST) as u16,
        statements: Vec::new(),
    };
    let size = size(random, kind, long);
    let mut palette = palette(random, kind, sheet.first);
    if long {
        palette =
            Palette { binary: vec![Two::Binary(5)], repeat_percent: 0, forms: FORMS[1], ..palette };
    } else if aside.percent(POWERS_PERCENT) {
        add_powers(&mut aside, kind, &mut palette);
    }
    fill(random, &mut sheet, size, palette);
    sheet
}

fn size(random: &mut Random, kind: Kind, long: bool) -> Size {
    let (nodes, statements) = match kind {
        Kind::Small => (SMALL_NODES, SMALL_STATEMENTS),
        Kind::Large if long => (LONG_NODES, LARGE_STATEMENTS),
        Kind::Large => (LARGE_NODES, LARGE_STATEMENTS),
        _ => (VALID_NODES, VALID_STATEMENTS),
    };
    let most = random.ranged(nodes);
    let least = match kind {
        _ if long || most == NODE_LIMIT => most,
        Kind::Large => 256,
        _ => 0,
    };
    Size { most, least, statements: random.ranged(statements).min(most) }
}

/// Powers among the unaries, powers under a modulus among the binaries, or both.
fn add_powers(random: &mut Random, kind: Kind, palette: &mut Palette) {
    let range = match kind {
        Kind::Large => random.weighted(&LARGE_POWER_RANGES),
        _ => random.weighted(&POWER_RANGES),
    };
    palette.powers = (0..random.ranged(POWERS)).map(|_| power(random, range)).collect();
    let which = random.within(0, 3);
    if which != 0 {
        palette.unary.extend(palette.powers.iter().map(|power| One::Power(*power)));
    }
    if which != 1 {
        palette.binary.extend(palette.powers.iter().map(|power| Two::Power(modular(*power))));
    }
}

fn flags(random: &mut Random) -> u8 {
    u8::from(random.percent(SHARING_PERCENT)) + 2 * u8::from(random.percent(FUSED_PERCENT))
}

/// Grows the statements within the size.
fn fill(random: &mut Random, sheet: &mut Sheet, size: Size, palette: Palette) {
    let apart = random.percent(APART_PERCENT);
    let mut grower = Grower::new(random, palette, sheet.scratch as usize);
    let mut left = size.most;
    for number in 0..size.statements {
        let others = size.statements - number - 1;
        let room = if others == 0 { left } else { share(grower.random, left, others) };
        let tree = grower.statement(room);
        left -= tree.weight();
        let place = destination(grower.random, sheet.first, apart, number);
        sheet.statements.push(Statement { place, tree });
    }
    // Repeats and chains fall short of their room: one flat tree brings the least.
    let nodes = sheet.nodes();
    if nodes < size.least && sheet.statements.len() < STATEMENT_LIMIT {
        let tree = grower.exact(size.least - nodes);
        let place = destination(grower.random, sheet.first, apart, size.statements);
        sheet.statements.push(Statement { place, tree });
    }
}

/// A statement's room: around an even part, leaving at least one node to each of the others.
fn share(random: &mut Random, left: usize, others: usize) -> usize {
    let even = left / (others + 1);
    random.within(1, 2 * even.max(1)).min(left - others)
}

/// A destination, where `apart` one that few leaves read and no other statement assigns.
fn destination(random: &mut Random, first: u16, apart: bool, number: usize) -> Place {
    match apart {
        true => Place { kind: MEMORY, index: 20_000 + number as u16 },
        false => place(random, first, &[STACK, MEMORY]),
    }
}

/// A place of one of the kinds; a stack index stays below the first temporary.
pub fn place(random: &mut Random, first: u16, kinds: &[u8]) -> Place {
    let index = random.ranged(INDEX) as u16;
    match random.pick(kinds) {
        STACK if first == 0 => Place { kind: MEMORY, index },
        STACK => Place { kind: STACK, index: index.min(first - 1) },
        kind => Place { kind, index },
    }
}

const ALL_KINDS: [u8; 3] = [STACK, MEMORY, PARAMETER];

fn palette(random: &mut Random, kind: Kind, first: u16) -> Palette {
    let leaves = random.ranged(if kind == Kind::Small { SMALL_LEAVES } else { VALID_LEAVES });
    let conditions = random.within(1, 3);
    let functions = random.within(1, 3);
    Palette {
        leaves: (0..leaves).map(|_| leaf(random, first)).collect(),
        conditions: (0..conditions).map(|_| place(random, first, &ALL_KINDS)).collect(),
        functions: (0..functions).map(|_| random.ranged(FUNCTION) as u8).collect(),
        unary: codes(random, 21, UNARY_FAVOURED).into_iter().map(One::Unary).collect(),
        binary: codes(random, 15, BINARY_FAVOURED).into_iter().map(Two::Binary).collect(),
        powers: Vec::new(),
        repeat_percent: random.pick(if kind == Kind::Small { &SMALL_REPEATS } else { &REPEATS }),
        forms: random.pick(&FORMS),
    }
}

const FUNCTION: Ranges = &[(25, (0, 0)), (25, (255, 255)), (50, (1, 254))];
const CONSTANT_PERCENT: usize = 25;
const UNARY_FAVOURED: &[u8] = &[1, 7, 9, 10, 16];
const BINARY_FAVOURED: &[u8] = &[1, 2, 3, 4, 5];
/// Weights of unary, binary, choice, function of one, function of two.
const FORMS: [[usize; 5]; 5] = [
    [20, 55, 8, 7, 10],
    [10, 85, 5, 0, 0],
    [15, 40, 5, 15, 25],
    [30, 30, 30, 5, 5],
    [5, 60, 0, 5, 30],
];

fn leaf(random: &mut Random, first: u16) -> Tree {
    match random.percent(CONSTANT_PERCENT) {
        true => Tree::Constant(random.ranged(INDEX) as u16),
        false => Tree::Variable(place(random, first, &ALL_KINDS)),
    }
}

/// All codes, a few of them, or the favoured ones.
fn codes(random: &mut Random, last: u8, favoured: &[u8]) -> Vec<u8> {
    match random.weighted(&[(40, 0), (35, 1), (25, 2)]) {
        0 => (1..=last).collect(),
        1 => (0..3).map(|_| random.within(1, last as usize) as u8).collect(),
        _ => favoured.to_vec(),
    }
}

/// The file, at times with gaps between statements, or one that fills it up to the limit.
pub fn write(random: &mut Random, sheet: &Sheet, kind: Kind) -> Vec<u8> {
    let count = sheet.statements.len();
    let mut gaps = vec![Vec::new(); count + 1];
    if random.percent(GAPS_PERCENT) {
        for gap in &mut gaps {
            let length = random.within(0, 7);
            *gap = random.bytes(length);
        }
    }
    if kind != Kind::Small && random.percent(FULL_FILE_PERCENT) {
        let rest = FILE_LIMIT - sheet.write(&gaps).len();
        let more = random.bytes(rest);
        let at = random.within(0, count);
        gaps[at].extend(more);
    }
    sheet.write(&gaps)
}
