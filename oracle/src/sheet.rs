//! The sheet: its bytes to statements and back. A refusal is document 01's number 2 to 7, or T-02's 11.

#[derive(Clone, Copy, Debug, PartialEq, Eq, Hash)]
pub struct Place {
    pub kind: u8,
    pub index: u16,
}

pub const STACK: u8 = 1;
pub const MEMORY: u8 = 2;
pub const PARAMETER: u8 = 3;

#[derive(Clone, Debug, PartialEq, Eq)]
pub enum Tree {
    Constant(u16),
    Variable(Place),
    Unary(u8, Box<Tree>),
    Binary(u8, Box<Tree>, Box<Tree>),
    /// Condition, true side, false side.
    Choice(Place, Box<Tree>, Box<Tree>),
    Function1(u8, Box<Tree>),
    Function2(u8, Box<Tree>, Box<Tree>),
    Power(i32, Box<Tree>),
    /// Power, base, modulus.
    ModularPower(i32, Box<Tree>, Box<Tree>),
}

#[derive(Clone, Debug)]
pub struct Statement {
    pub place: Place,
    pub tree: Tree,
}

#[derive(Clone, Debug)]
pub struct Sheet {
    pub scratch: u8,
    pub flags: u8,
    pub step: u8,
    pub first: u16,
    pub statements: Vec<Statement>,
}

pub const FILE_LIMIT: usize = 16_384;
pub const DEPTH_LIMIT: usize = 64;
pub const NODE_LIMIT: usize = 1_024;
pub const STATEMENT_LIMIT: usize = 256;
const HEADER: usize = 8;
/// All flags set.
pub const FLAGS: u8 = 7;

impl Sheet {
    pub fn sharing(&self) -> bool {
        self.flags & 1 != 0
    }

    pub fn fused(&self) -> bool {
        self.flags & 2 != 0
    }

    pub fn stable(&self) -> bool {
        self.flags & 4 != 0
    }

    /// Checks 2 to 7 and 11, down the table.
    pub fn read(bytes: &[u8]) -> Result<Sheet, u8> {
        if bytes.len() < HEADER || bytes.len() > FILE_LIMIT {
            return Err(2);
        }
        let (scratch, flags, step) = (bytes[0], bytes[1], bytes[2]);
        let count = number(bytes, 4) as usize;
        let ranges = (2..=32).contains(&scratch) && flags <= FLAGS && (1..=8).contains(&step);
        if !ranges || bytes[3] != 0 || count > STATEMENT_LIMIT {
            return Err(3);
        }
        let first = number(bytes, 6);
        let mut nodes = 0;
        let mut statements = Vec::new();
        for (start, end) in pairs(bytes, count)? {
            let mut reader = Reader { bytes: &bytes[start..end], at: 0, first, nodes };
            statements.push(reader.statement()?);
            nodes = reader.nodes;
        }
        Ok(Sheet { scratch, flags, step, first, statements })
    }

    /// The file; gaps[i] stands before statement i, the last gap after all of them.
    pub fn write(&self, gaps: &[Vec<u8>]) -> Vec<u8> {
        let count = self.statements.len();
        let mut bytes = vec![self.scratch, self.flags, self.step, 0];
        bytes.extend((count as u16).to_le_bytes());
        bytes.extend(self.first.to_le_bytes());
        let table = HEADER + 4 * count;
        let mut body = Vec::new();
        for (statement, gap) in self.statements.iter().zip(gaps) {
            body.extend(gap);
            let offset = table + body.len();
            statement.place.write(&mut body);
            statement.tree.write(&mut body);
            let length = table + body.len() - offset;
            bytes.extend((offset as u16).to_le_bytes());
            bytes.extend((length as u16).to_le_bytes());
        }
        body.extend(&gaps[count]);
        bytes.extend(body);
        bytes
    }

    pub fn nodes(&self) -> usize {
        self.statements.iter().map(|statement| statement.tree.weight()).sum()
    }

    /// How many of its nodes are such.
    pub fn count(&self, is: fn(&Tree) -> bool) -> usize {
        self.statements.iter().map(|statement| statement.tree.count(is)).sum()
    }
}

fn number(bytes: &[u8], at: usize) -> u16 {
    u16::from_le_bytes([bytes[at], bytes[at + 1]])
}

/// Start and end of every statement (check 4).
fn pairs(bytes: &[u8], count: usize) -> Result<Vec<(usize, usize)>, u8> {
    let mut free = HEADER + 4 * count;
    if bytes.len() < free {
        return Err(4);
    }
    let mut found = Vec::new();
    for pair in 0..count {
        let start = number(bytes, HEADER + 4 * pair) as usize;
        let end = start + number(bytes, HEADER + 4 * pair + 2) as usize;
        if start < free || end > bytes.len() {
            return Err(4);
        }
        found.push((start, end));
        free = end;
    }
    Ok(found)
}

/// Reads one statement; every check falls at the byte where document 01 puts it.
struct Reader<'a> {
    bytes: &'a [u8],
    at: usize,
    first: u16,
    nodes: usize,
}

impl Reader<'_> {
    fn byte(&mut self) -> Result<u8, u8> {
        let byte = *self.bytes.get(self.at).ok_or(5)?;
        self.at += 1;
        Ok(byte)
    }

    fn byte_up_to(&mut self, limit: u8) -> Result<u8, u8> {
        match self.byte()? {
            byte if (1..=limit).contains(&byte) => Ok(byte),
            _ => Err(5),
        }
    }

    fn index(&mut self) -> Result<u16, u8> {
        Ok(u16::from_le_bytes([self.byte()?, self.byte()?]))
    }

    fn power(&mut self) -> Result<i32, u8> {
        Ok(i32::from_le_bytes([self.byte()?, self.byte()?, self.byte()?, self.byte()?]))
    }

    /// The lowest power has no size of its own sign: under a modulus it is refused at its last byte.
    fn modular_power(&mut self) -> Result<i32, u8> {
        match self.power()? {
            i32::MIN => Err(11),
            power => Ok(power),
        }
    }

    fn place(&mut self, kinds: u8) -> Result<Place, u8> {
        let kind = self.byte_up_to(kinds)?;
        let index = self.index()?;
        match kind {
            STACK if index >= self.first => Err(7),
            _ => Ok(Place { kind, index }),
        }
    }

    fn statement(&mut self) -> Result<Statement, u8> {
        let place = self.place(MEMORY)?;
        let tree = self.tree(1)?;
        match self.at == self.bytes.len() {
            true => Ok(Statement { place, tree }),
            false => Err(5),
        }
    }

    fn tree(&mut self, depth: usize) -> Result<Tree, u8> {
        let tag = self.byte_up_to(9)?;
        self.nodes += 1;
        if depth > DEPTH_LIMIT || self.nodes > NODE_LIMIT {
            return Err(6);
        }
        Ok(match tag {
            1 => Tree::Constant(self.index()?),
            2 => Tree::Variable(self.place(PARAMETER)?),
            3 => Tree::Unary(self.byte_up_to(21)?, self.side(depth)?),
            4 => Tree::Binary(self.byte_up_to(15)?, self.side(depth)?, self.side(depth)?),
            5 => Tree::Choice(self.place(PARAMETER)?, self.side(depth)?, self.side(depth)?),
            6 => Tree::Function1(self.byte()?, self.side(depth)?),
            7 => Tree::Function2(self.byte()?, self.side(depth)?, self.side(depth)?),
            8 => Tree::Power(self.power()?, self.side(depth)?),
            _ => Tree::ModularPower(self.modular_power()?, self.side(depth)?, self.side(depth)?),
        })
    }

    fn side(&mut self, depth: usize) -> Result<Box<Tree>, u8> {
        self.tree(depth + 1).map(Box::new)
    }
}

impl Place {
    pub fn write(&self, out: &mut Vec<u8>) {
        out.push(self.kind);
        out.extend(self.index.to_le_bytes());
    }
}

impl Tree {
    pub fn sides(&self) -> Vec<&Tree> {
        match self {
            Tree::Constant(_) | Tree::Variable(_) => vec![],
            Tree::Unary(_, arg) | Tree::Function1(_, arg) | Tree::Power(_, arg) => vec![arg],
            Tree::Binary(_, left, right)
            | Tree::Choice(_, left, right)
            | Tree::Function2(_, left, right)
            | Tree::ModularPower(_, left, right) => vec![left, right],
        }
    }

    pub fn sides_mut(&mut self) -> Vec<&mut Tree> {
        match self {
            Tree::Constant(_) | Tree::Variable(_) => vec![],
            Tree::Unary(_, arg) | Tree::Function1(_, arg) | Tree::Power(_, arg) => vec![arg],
            Tree::Binary(_, left, right)
            | Tree::Choice(_, left, right)
            | Tree::Function2(_, left, right)
            | Tree::ModularPower(_, left, right) => vec![left, right],
        }
    }

    pub fn weight(&self) -> usize {
        1 + self.sides().iter().map(|side| side.weight()).sum::<usize>()
    }

    pub fn depth(&self) -> usize {
        1 + self.sides().iter().map(|side| side.depth()).max().unwrap_or(0)
    }

    /// How many of its nodes are such.
    pub fn count(&self, is: fn(&Tree) -> bool) -> usize {
        usize::from(is(self)) + self.sides().iter().map(|side| side.count(is)).sum::<usize>()
    }

    pub fn is_power(&self) -> bool {
        matches!(self, Tree::Power(..) | Tree::ModularPower(..))
    }

    /// The node's own bytes, without those of its sides.
    pub fn write_head(&self, out: &mut Vec<u8>) {
        match self {
            Tree::Constant(index) => {
                out.push(1);
                out.extend(index.to_le_bytes());
            }
            Tree::Variable(place) => {
                out.push(2);
                place.write(out);
            }
            Tree::Unary(code, _) => out.extend([3, *code]),
            Tree::Binary(code, _, _) => out.extend([4, *code]),
            Tree::Choice(condition, _, _) => {
                out.push(5);
                condition.write(out);
            }
            Tree::Function1(function, _) => out.extend([6, *function]),
            Tree::Function2(function, _, _) => out.extend([7, *function]),
            Tree::Power(power, _) => {
                out.push(8);
                out.extend(power.to_le_bytes());
            }
            Tree::ModularPower(power, _, _) => {
                out.push(9);
                out.extend(power.to_le_bytes());
            }
        }
    }

    pub fn write(&self, out: &mut Vec<u8>) {
        self.write_head(out);
        for side in self.sides() {
            side.write(out);
        }
    }
}
