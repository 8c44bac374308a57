//! From a sheet to the list, through the Rust's add_assign and compile_mir.

use std::cell::RefCell;
use std::rc::Rc;

use crate::differences::{Classes, Worked};
use crate::rust::builder::Builder;
use crate::rust::config::Config;
use crate::rust::mir::{ArithOp, BinOp, Instruction, Mir, UniOp};
use crate::rust::node::Node;
use crate::rust::operation::Operation as Name;
use crate::rust::serializer::Record;
use crate::rust::statement::Statement;
use crate::rust::symbol::{Loc, Symbol, SymbolTable};
use crate::rust::utils::Reg;
use crate::sheet::{Place, Sheet, Tree, MEMORY, STACK};
use crate::text::{function_number, kind, Listing, Operation, Site, BINARY, RET, TEMP, UNARY};

pub enum Answer {
    /// A sheet that checks 2 to 7, or 11, refuse.
    Unreadable,
    /// The Rust returned an error, after emitting so many operations.
    Error(usize),
    List(Listing),
}

/// The Rust's own answer to a file.
pub fn compile_bytes(bytes: &[u8]) -> Answer {
    match Sheet::read(bytes) {
        Err(_) => Answer::Unreadable,
        Ok(sheet) => match compile_sheet(&sheet, Worked::NONE) {
            Err(emitted) => Answer::Error(emitted),
            Ok(compiled) => Answer::List(compiled.listing),
        },
    }
}

/// The Rust's list, and the Ershov number that it gives the tree of each trimmed statement.
pub struct Compiled {
    pub listing: Listing,
    pub needs: Vec<u32>,
}

/// What the Rust makes of a sheet; where it returns an error, how many operations it had emitted. Of the differences
/// that are worked in, it sees those of calls and moduli.
pub fn compile_sheet(sheet: &Sheet, worked: Worked) -> Result<Compiled, usize> {
    let mut run = Run::new(sheet, worked);
    let done = run.compile_mir();
    let operations = run.operations();
    if !done {
        return Err(operations.len());
    }
    let block = run.builder.block();
    let needs = block.stmts.iter().map(ershov_number).collect();
    let listing = Listing { operations, temporaries: block.num_tmp as u32 };
    Ok(Compiled { listing, needs })
}

/// Of an assignment's tree, and of a call with its arguments.
fn ershov_number(statement: &Statement) -> u32 {
    match statement {
        Statement::Assign { rhs, .. } => rhs.ershov_number().into(),
        Statement::Call { arg, .. } => arg.ershov_number().into(),
        other => unreachable!("outside document 01: {other:?}"),
    }
}

/// A sheet's nodes, made and handed to the Rust's builder, before `compile_mir`.
pub struct Run {
    builder: Builder,
    mir: Mir,
}

impl Run {
    pub fn new(sheet: &Sheet, worked: Worked) -> Run {
        let config = Config {
            sharing: sheet.sharing(),
            fused: sheet.fused(),
            stable: sheet.stable(),
            scratch: sheet.scratch,
            stores_moduli: worked.moduli,
            df: None,
        };
        let mut builder = Builder::new(config.clone());
        let classes = worked.calls.then(Classes::default);
        let mut nodes = Nodes { symbols: builder.symbol_table().clone(), classes };
        for statement in &sheet.statements {
            let place = nodes.variable(statement.place);
            let tree = nodes.node(&statement.tree);
            builder.block().add_assign(place, tree);
        }
        // create_tmp takes a temporary's index from these two.
        nodes.symbols.num_stack = sheet.first.into();
        nodes.symbols.slot_size = sheet.step.into();
        *builder.symbol_table() = nodes.symbols;
        Run { builder, mir: Mir::new(config) }
    }

    /// The Rust's own function and nothing else; false where it returns an error.
    pub fn compile_mir(&mut self) -> bool {
        self.builder.compile_mir(&mut self.mir).is_ok()
    }

    /// What was emitted, without the nop before a power's move (T-02 drops it).
    fn operations(&self) -> Vec<Operation> {
        let nop = |record: &&Record| matches!(record, Record::Emitted(Instruction::Nop));
        self.mir.code.records.iter().filter(|record| !nop(record)).map(operation).collect()
    }
}

/// Makes the Rust's nodes directly, without the builder's rewriting.
struct Nodes {
    symbols: SymbolTable,
    classes: Option<Classes>,
}

impl Nodes {
    /// One symbol a place; the name is what the Rust hashes.
    fn variable(&mut self, place: Place) -> Node {
        let index = place.index.into();
        let (letter, loc) = match place.kind {
            STACK => ('s', Loc::Stack(index)),
            MEMORY => ('m', Loc::Mem(index)),
            _ => ('p', Loc::Param(index)),
        };
        let name = format!("{letter}{index}");
        let symbol = self.symbols.syms.entry(name.clone()).or_insert_with(|| {
            Rc::new(RefCell::new(Symbol { _name: name, loc, visited: false, reg: None }))
        });
        Node::create_var(symbol.clone())
    }

    fn node(&mut self, tree: &Tree) -> Node {
        match tree {
            Tree::Constant(index) => Node::create_const((*index).into(), (*index).into()),
            Tree::Variable(place) => self.variable(*place),
            Tree::Unary(code, arg) => {
                Node::create_unary(name(UNARY[*code as usize - 1]), self.node(arg), 1)
            }
            Tree::Binary(code, left, right) => {
                self.binary(name(BINARY[*code as usize - 1]), left, right)
            }
            Tree::Choice(condition, left, right) => {
                let condition = self.variable(*condition);
                Node::create_ifelse(&condition, self.node(left), self.node(right))
            }
            Tree::Function1(function, arg) => {
                let function = self.function(*function, tree);
                Node::create_unary(function, self.node(arg), 1)
            }
            Tree::Function2(function, left, right) => {
                let function = self.function(*function, tree);
                self.binary(function, left, right)
            }
            Tree::Power(power, arg) => Node::create_powi(self.node(arg), *power),
            Tree::ModularPower(power, base, modulus) => {
                let (base, modulus) = (self.node(base), self.node(modulus));
                Node::create_modular_powi(base, modulus, *power)
            }
        }
    }

    fn binary(&mut self, name: Name, left: &Tree, right: &Tree) -> Node {
        let (left, right) = (self.node(left), self.node(right));
        Node::create_binary(name, left, right, 1, None)
    }

    fn function(&mut self, number: u8, tree: &Tree) -> Name {
        match &mut self.classes {
            None => name(&format!("f{number}")),
            Some(classes) => name(&format!("f{number}~{}", classes.class(tree))),
        }
    }
}

fn name(text: &str) -> Name {
    Name::new_checked(text)
}

/// One record as an operation of the list.
fn operation(record: &Record) -> Operation {
    match record {
        Record::Swap(dst, s1) => of(kind::SWAP, 0, *dst, *s1, Site::Nowhere),
        Record::Emitted(instruction) => emitted(instruction),
    }
}

fn emitted(instruction: &Instruction) -> Operation {
    use Instruction::*;
    match *instruction {
        LoadConst { dst, idx } => from_site(kind::CONST, dst, Site::Constant(idx)),
        Load { dst, loc } => from_site(kind::LOAD, dst, site(loc)),
        Save { src, loc } => save(src, loc),
        Mov { dst, s1 } => of(kind::MOVE, 0, dst, s1, Site::Nowhere),
        Uni { op, dst, s1 } => of(kind::UNI, unary_code(op), dst, s1, Site::Nowhere),
        Bi { op, dst, s1, s2 } => {
            with_s2(of(kind::BI, binary_code(op), dst, s1, Site::Nowhere), s2)
        }
        IfElse { dst, true_val, false_val, cond } => {
            with_s2(of(kind::IFELSE, 0, dst, true_val, site(cond)), false_val)
        }
        LoadMath { op, dst, s1, loc } => of(kind::LOADMATH, arith_code(op), dst, s1, site(loc)),
        LoadConstMath { op, dst, s1, idx } => {
            of(kind::CONSTMATH, arith_code(op), dst, s1, Site::Constant(idx))
        }
        Call { ref label, num_args } => call(label, num_args),
        ref other => unreachable!("outside document 01: {other:?}"),
    }
}

fn of(kind: u32, code: u32, destination: Reg, s1: Reg, site: Site) -> Operation {
    let (destination, s1) = (register(destination), register(s1));
    Operation { kind, code, destination, s1, s2: 0, site }
}

fn with_s2(operation: Operation, s2: Reg) -> Operation {
    Operation { s2: register(s2), ..operation }
}

fn from_site(kind: u32, destination: Reg, site: Site) -> Operation {
    Operation { kind, destination: register(destination), site, ..Operation::default() }
}

fn save(src: Reg, loc: Loc) -> Operation {
    Operation { kind: kind::SAVE, s1: register(src), site: site(loc), ..Operation::default() }
}

fn call(label: &str, arguments: usize) -> Operation {
    let code = function_number(label).expect("a function of the sheet").into();
    Operation { kind: kind::CALL, code, s1: arguments as u32, ..Operation::default() }
}

fn register(register: Reg) -> u32 {
    match register {
        Reg::Gen(number) => number.into(),
        Reg::Temp => TEMP,
        Reg::Ret => RET,
    }
}

fn site(loc: Loc) -> Site {
    match loc {
        Loc::Stack(index) => Site::Place(1, index),
        Loc::Mem(index) => Site::Place(2, index),
        Loc::Param(index) => Site::Place(3, index),
    }
}

fn unary_code(op: UniOp) -> u32 {
    match op {
        UniOp::Neg => 1,
        UniOp::Not => 2,
        UniOp::Abs => 3,
        UniOp::Abs2 => 4,
        UniOp::TimesI => 5,
        UniOp::TimesNegI => 6,
        UniOp::Root => 7,
        UniOp::RealRoot => 8,
        UniOp::Recip => 11,
        UniOp::Round => 12,
        UniOp::Floor => 13,
        UniOp::Ceiling => 14,
        UniOp::Trunc => 15,
        UniOp::Real => 17,
        UniOp::Imaginary => 18,
        UniOp::Conjugate => 19,
        UniOp::IsZero => 20,
        UniOp::IsNotZero => 21,
        UniOp::Half | UniOp::Sign => unreachable!("outside document 01: {op:?}"),
    }
}

fn binary_code(op: BinOp) -> u32 {
    match op {
        BinOp::Plus => 1,
        BinOp::Minus => 2,
        BinOp::Times => 3,
        BinOp::Divide => 4,
        BinOp::GreaterThan => 6,
        BinOp::GreaterThanEqual => 7,
        BinOp::LittleThan => 8,
        BinOp::LittleThanEqual => 9,
        BinOp::Equal => 10,
        BinOp::NotEqual => 11,
        BinOp::And => 12,
        BinOp::Or => 13,
        BinOp::Xor => 14,
        BinOp::Complex => 15,
        BinOp::AndNot => unreachable!("outside document 01: {op:?}"),
    }
}

fn arith_code(op: ArithOp) -> u32 {
    match op {
        ArithOp::Plus => 1,
        ArithOp::Minus => 2,
        ArithOp::Times => 3,
        ArithOp::Divide => 4,
    }
}
