//! Random modules within the limits, well typed or nearly so.

use crate::encode::encode;
use crate::functions::{self, With};
use crate::module::{Edge, Expr, Function, Module, Operator, Stmt, Term, Variable};
use crate::random::Random;
use crate::sheet::{
    EXPR_DEPTH, MOST_BYTES, MOST_INPUTS, MOST_INSTRUCTIONS, MOST_REGISTERS, MOST_TERMS,
    MOST_THREADS, MOST_WIDTH, MOST_WIRES, STMT_DEPTH,
};

/// A random module whose sheet is accepted.
pub fn module(random: &mut Random) -> Module {
    module_by(With::AsRead, random)
}

pub fn module_by(with: With, random: &mut Random) -> Module {
    short_module(random, with, false)
}

/// A random module in which now and then a variable has the wrong width, a target
/// is no register, or a thread has one instruction too many.
pub fn ill_typed_module(random: &mut Random) -> Module {
    ill_typed_module_by(With::AsRead, random)
}

pub fn ill_typed_module_by(with: With, random: &mut Random) -> Module {
    short_module(random, with, true)
}

/// A module whose sheet has at most 8,192 bytes.
fn short_module(random: &mut Random, with: With, careless: bool) -> Module {
    loop {
        let with = with.drawn(random);
        let module = Generator::new(random, careless).module(with);
        if encode(&module).len() <= MOST_BYTES {
            return module;
        }
    }
}

struct Generator<'a> {
    random: &'a mut Random,
    inputs: u8,
    registers: u8,
    widths: Vec<u8>,
    functions: Vec<Function>,
    /// The most nodes of an expression.
    nodes: usize,
    /// The most instructions of a statement.
    room: usize,
    /// Whether one branch of a tree gets all it can, to reach the depths.
    lopsided: bool,
    /// Whether threads use all the room.
    full: bool,
    /// Whether variables of any width are taken now and then.
    careless: bool,
}

impl<'a> Generator<'a> {
    fn new(random: &'a mut Random, careless: bool) -> Generator<'a> {
        let longest = MOST_INSTRUCTIONS - 1 + usize::from(careless);
        Generator {
            inputs: 0,
            registers: 0,
            widths: Vec::new(),
            functions: Vec::new(),
            nodes: random.pick(&[1, 2, 3, 5, 12, 40]),
            room: random.pick(&[2, 4, 8, 16, 40, longest]),
            lopsided: random.chance(1, 6),
            full: random.chance(1, 6),
            careless,
            random,
        }
    }

    fn module(&mut self, with: bool) -> Module {
        self.inputs = self.count(1, MOST_INPUTS);
        self.registers = self.count(1, MOST_REGISTERS);
        let wires = self.count(0, MOST_WIRES);
        let threads = self.count(1, MOST_THREADS);
        let first_wire = self.inputs + self.registers;
        let variables = first_wire + wires;
        self.widths =
            (0..variables).map(|v| if v == 0 { 1 } else { self.fresh_width() }).collect();
        if with {
            self.functions = match self.careless {
                true => functions::careless_functions(&self.widths, self.random),
                false => functions::functions(&self.widths, self.random),
            };
        }
        let wires = (first_wire..variables).map(|v| self.wire(v)).collect();
        let threads = (0..threads).map(|_| self.thread()).collect();
        let (widths, functions) = (self.widths.clone(), self.functions.clone());
        let (inputs, registers) = (self.inputs, self.registers);
        Module { inputs, registers, widths, functions, wires, threads }
    }

    /// Small counts more often than large ones, both limits now and then.
    fn count(&mut self, least: u8, most: u8) -> u8 {
        match self.random.below(8) {
            0 => least,
            1 => most,
            2 => self.random.between(least.into(), most.into()) as u8,
            _ => self.random.between(least.into(), usize::from(least) + 4) as u8,
        }
    }

    fn fresh_width(&mut self) -> u8 {
        match self.random.below(4) {
            0 => 1,
            1 => self.random.pick(&[2, 8, 16, 31, 32]),
            _ => self.random.between(1, MOST_WIDTH.into()) as u8,
        }
    }

    /// A variable's width more often than another one.
    fn some_width(&mut self) -> u8 {
        match self.random.chance(3, 4) {
            true => self.random.pick(&self.widths),
            false => self.fresh_width(),
        }
    }

    fn variable(&mut self) -> Variable {
        self.random.below(self.widths.len()) as u8
    }

    fn wire(&mut self, variable: Variable) -> Expr {
        self.fresh_expr(self.widths[usize::from(variable)])
    }

    fn thread(&mut self) -> Stmt {
        let least = if self.full { self.room } else { 0 };
        let room = self.random.between(least, self.room);
        self.stmt(room, STMT_DEPTH)
    }

    /// Whether to be careless here.
    fn slips(&mut self) -> bool {
        self.careless && self.random.chance(1, 30)
    }

    /// Divides an amount among so many parts.
    fn shares(&mut self, amount: usize, parts: usize) -> Vec<usize> {
        let mut shares = vec![0; parts];
        if self.lopsided {
            // The others get one, as far as it reaches.
            let large = self.random.below(parts);
            shares.fill(usize::from(amount >= parts));
            shares[large] += amount - shares.iter().sum::<usize>();
            return shares;
        }
        let mut rest = amount;
        for share in &mut shares[1..] {
            *share = self.random.between(0, rest);
            rest -= *share;
        }
        shares[0] = rest;
        shares
    }

    // ---- expressions

    fn fresh_expr(&mut self, width: u8) -> Expr {
        let nodes = self.random.between(1, self.nodes);
        self.expr(width, nodes, EXPR_DEPTH)
    }

    fn condition(&mut self) -> Expr {
        let width = self.some_width();
        self.fresh_expr(width)
    }

    /// An expression of the width, at most so deep, of about so many nodes.
    fn expr(&mut self, width: u8, nodes: usize, depth: usize) -> Expr {
        if nodes <= 1 || depth == 1 {
            return self.leaf(width);
        }
        if let Some(number) = functions::pick(&self.functions, width, self.random) {
            let widths = self.functions[usize::from(number)].parameters.clone();
            let number = if self.slips() { self.random.below(10) as u8 } else { number };
            return Expr::Call(number, self.parts(widths, nodes, depth));
        }
        let operator = operator(width, self.random);
        let widths = operand_widths(operator, width, self.some_width());
        Expr::Operation(operator, self.parts(widths, nodes, depth))
    }

    fn parts(&mut self, widths: Vec<u8>, nodes: usize, depth: usize) -> Vec<Expr> {
        let shares = self.shares(nodes - 1, widths.len());
        let parts = widths.into_iter().zip(shares);
        parts.map(|(width, nodes)| self.expr(width, nodes, depth - 1)).collect()
    }

    fn leaf(&mut self, width: u8) -> Expr {
        if self.slips() {
            return Expr::Variable(self.variable());
        }
        match self.random.below(6) {
            0 => Expr::Unknown { width },
            1 => Expr::Constant { width, value: self.value(width) },
            _ => self.variable_of(width).unwrap_or(Expr::Unknown { width }),
        }
    }

    /// A variable of the width: the first one from a random start.
    fn variable_of(&mut self, width: u8) -> Option<Expr> {
        let start = self.random.below(self.widths.len());
        let mut around = (start..self.widths.len()).chain(0..start);
        around.find(|&v| self.widths[v] == width).map(|v| Expr::Variable(v as u8))
    }

    fn value(&mut self, width: u8) -> u32 {
        let most = ((1u64 << width) - 1) as u32;
        match self.random.below(4) {
            0 => most,
            1 => self.random.below(3) as u32 & most,
            _ => self.random.number() as u32 & most,
        }
    }

    // ---- statements

    /// A statement at most so deep, of at most so many instructions.
    fn stmt(&mut self, room: usize, depth: usize) -> Stmt {
        if depth == 1 || self.stops(room) {
            return self.simple(room);
        }
        match self.random.below([3, 5, 7][room.min(2)]) {
            0..=2 => {
                let shares = self.shares(room, 2);
                Stmt::sequence(self.stmt(shares[0], depth - 1), self.stmt(shares[1], depth - 1))
            }
            3 => Stmt::forever(self.stmt(room - 1, depth - 1)),
            4 => Stmt::when(self.condition(), self.stmt(room - 1, depth - 1)),
            5 => {
                let shares = self.shares(room - 2, 2);
                let condition = self.condition();
                let first = self.stmt(shares[0], depth - 1);
                Stmt::if_else(condition, first, self.stmt(shares[1], depth - 1))
            }
            _ => Stmt::while_loop(self.condition(), self.stmt(room - 2, depth - 1)),
        }
    }

    /// Whether to go no deeper.
    fn stops(&mut self, room: usize) -> bool {
        match room {
            2.. if self.full => false,
            2.. if self.lopsided => self.random.chance(1, 100),
            0 | 1 => self.random.chance(7, 8),
            2..=4 => self.random.chance(1, 2),
            _ => self.random.chance(1, 16),
        }
    }

    fn simple(&mut self, room: usize) -> Stmt {
        if room == 0 || (!self.full && self.random.chance(1, 6)) {
            return Stmt::Empty;
        }
        match self.random.below(5) {
            0 | 1 => Stmt::Wait(self.terms()),
            kind => {
                let target = self.target();
                let value = self.fresh_expr(self.widths[usize::from(target)]);
                if kind == 2 { Stmt::Set(target, value) } else { Stmt::Later(target, value) }
            }
        }
    }

    fn target(&mut self) -> Variable {
        match self.slips() {
            true => self.variable(),
            false => self.inputs + self.random.below(self.registers.into()) as u8,
        }
    }

    fn terms(&mut self) -> Vec<Term> {
        let most = if self.random.chance(1, 2) { 2 } else { MOST_TERMS.into() };
        let count = self.random.between(1, most);
        (0..count).map(|_| self.term()).collect()
    }

    /// Posedge and negedge stand on one-bit variables only.
    fn term(&mut self) -> Term {
        let variable = if self.random.chance(1, 4) { 0 } else { self.variable() };
        let edge = match self.widths[usize::from(variable)] == 1 || self.slips() {
            true => self.random.pick(&Edge::ALL),
            false => Edge::Any,
        };
        Term { edge, variable }
    }
}

/// The operators that keep known bits beside unknown ones.
const BITWISE: [Operator; 5] =
    [Operator::Invert, Operator::And, Operator::Or, Operator::Xor, Operator::Conditional];

/// An operator that can give the width, mostly a bitwise one.
pub fn operator(width: u8, random: &mut Random) -> Operator {
    loop {
        let operator = match random.chance(1, 2) {
            true => random.pick(&BITWISE),
            false => random.pick(&Operator::ALL),
        };
        let gives_one_bit =
            matches!(operator, Operator::Not | Operator::Equal | Operator::Less);
        if width == 1 || !gives_one_bit {
            return operator;
        }
    }
}

/// The widths of its operands, `other` where the result's width doesn't say.
pub fn operand_widths(operator: Operator, width: u8, other: u8) -> Vec<u8> {
    match operator {
        Operator::Invert => vec![width],
        Operator::Not => vec![other],
        Operator::Equal | Operator::Less => vec![other, other],
        Operator::Conditional => vec![other, width, width],
        _ => vec![width, width],
    }
}
