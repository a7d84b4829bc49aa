//! Random functions of a module (document 02, [5]), and calls of them.

use crate::generate::{operand_widths, operator};
use crate::module::{Expr, Function, Stmt, Variable};
use crate::random::Random;
use crate::runs;
use crate::sheet::{EXPR_DEPTH, FUNCTIONS, MOST_FUNCTIONS, MOST_PARAMETERS, STMT_DEPTH};
use crate::value::mask;

/// Whether a random module has functions.
#[derive(Clone, Copy, Debug, PartialEq, Eq)]
pub enum With {
    None,
    Some,
    /// One in three, where sheets with functions are read.
    AsRead,
}

impl With {
    pub fn drawn(self, random: &mut Random) -> bool {
        match self {
            With::None => false,
            With::Some => true,
            With::AsRead => FUNCTIONS && random.chance(1, 3),
        }
    }
}

/// The most runs of bodies that a body may ask for in turn.
const MOST_RUNS: u128 = 60;

/// Functions whose results and most of whose parameters have widths among these.
pub fn functions(widths: &[u8], random: &mut Random) -> Vec<Function> {
    some_functions(widths, false, random)
}

/// Functions in which now and then a call, a target, a width or a form is wrong.
pub fn careless_functions(widths: &[u8], random: &mut Random) -> Vec<Function> {
    some_functions(widths, true, random)
}

fn some_functions(widths: &[u8], careless: bool, random: &mut Random) -> Vec<Function> {
    let count = match random.below(8) {
        0 => usize::from(MOST_FUNCTIONS),
        _ => random.between(1, 4),
    };
    let mut functions: Vec<Function> = Vec::new();
    while functions.len() < count {
        let function = function(widths, careless, &functions, random);
        let all = [&functions[..], std::slice::from_ref(&function)].concat();
        if careless || runs::of_bodies(&all).iter().all(|&runs| runs <= MOST_RUNS) {
            functions = all;
        }
    }
    functions
}

/// The number of a function whose result has the width, now and then, where there is one.
pub fn pick(functions: &[Function], width: u8, random: &mut Random) -> Option<u8> {
    let fitting = |number: &u8| functions[usize::from(*number)].result == width;
    let numbers: Vec<u8> = (0..functions.len() as u8).filter(fitting).collect();
    (!numbers.is_empty() && random.chance(1, 3)).then(|| random.pick(&numbers))
}

fn function(
    widths: &[u8],
    careless: bool,
    earlier: &[Function],
    random: &mut Random,
) -> Function {
    let width = |random: &mut Random| match random.chance(7, 8) {
        true => random.pick(widths),
        false => random.between(1, 32) as u8,
    };
    let count = random.between(1, MOST_PARAMETERS.into());
    let parameters: Vec<u8> = (0..count).map(|_| width(random)).collect();
    let result = random.pick(widths);
    let widths = [&parameters[..], &[result]].concat();
    let nodes = random.pick(&[1, 2, 4, 8]);
    let room = random.pick(&[0, 1, 2, 3, 5, 8]);
    let mut body = Body { random, widths, earlier, nodes, careless };
    let body = body.stmt(room, STMT_DEPTH);
    Function { parameters, result, body }
}

struct Body<'a> {
    random: &'a mut Random,
    /// Parameters, then result.
    widths: Vec<u8>,
    earlier: &'a [Function],
    /// The most nodes of an expression.
    nodes: usize,
    careless: bool,
}

impl Body<'_> {
    fn slips(&mut self) -> bool {
        self.careless && self.random.chance(1, 30)
    }

    fn target(&self) -> Variable {
        (self.widths.len() - 1) as Variable
    }

    fn stmt(&mut self, room: usize, depth: usize) -> Stmt {
        if self.slips() {
            return self.strange();
        }
        if room <= 1 || depth == 1 {
            return self.simple(room);
        }
        match self.random.below(8) {
            0 => self.simple(room),
            1 | 2 => Stmt::when(self.condition(), self.stmt(room - 1, depth - 1)),
            3 | 4 => {
                let share = self.random.between(0, room - 1);
                let condition = self.condition();
                let first = self.stmt(share, depth - 1);
                Stmt::if_else(condition, first, self.stmt(room - 1 - share, depth - 1))
            }
            _ => {
                let share = self.random.between(0, room);
                let first = self.stmt(share, depth - 1);
                Stmt::sequence(first, self.stmt(room - share, depth - 1))
            }
        }
    }

    /// Now and then the result isn't assigned, and stays as it was.
    fn simple(&mut self, room: usize) -> Stmt {
        if room == 0 && self.random.chance(1, 2) {
            return Stmt::Empty;
        }
        let target = if self.slips() { self.variable() } else { self.target() };
        Stmt::Set(target, self.expr(self.widths[usize::from(target)]))
    }

    /// What no body has.
    fn strange(&mut self) -> Stmt {
        let target = self.target();
        match self.random.below(4) {
            0 => Stmt::posedge(0),
            1 => Stmt::Later(target, self.expr(self.widths[usize::from(target)])),
            2 => Stmt::while_loop(self.condition(), Stmt::Empty),
            _ => Stmt::forever(Stmt::Empty),
        }
    }

    fn variable(&mut self) -> Variable {
        self.random.below(self.widths.len()) as Variable
    }

    fn condition(&mut self) -> Expr {
        let width = self.random.pick(&self.widths);
        self.expr(width)
    }

    fn expr(&mut self, width: u8) -> Expr {
        let nodes = self.random.between(1, self.nodes);
        self.expr_of(width, nodes, EXPR_DEPTH)
    }

    /// An expression of the width with about so many nodes, at most so deep.
    fn expr_of(&mut self, width: u8, nodes: usize, depth: usize) -> Expr {
        if nodes <= 1 || depth == 1 {
            return self.leaf(width);
        }
        if self.slips() {
            // This function or a later one, or one that isn't there.
            let number = self.random.between(self.earlier.len(), 9) as u8;
            return Expr::Call(number, vec![self.leaf(width)]);
        }
        if let Some(number) = pick(self.earlier, width, self.random) {
            let widths = &self.earlier[usize::from(number)].parameters;
            return Expr::Call(number, self.parts(widths, nodes, depth));
        }
        let operator = operator(width, self.random);
        let other = self.random.pick(&self.widths);
        let widths = operand_widths(operator, width, other);
        Expr::Operation(operator, self.parts(&widths, nodes, depth))
    }

    fn parts(&mut self, widths: &[u8], nodes: usize, depth: usize) -> Vec<Expr> {
        let mut rest = nodes - 1;
        let mut parts = Vec::new();
        for (index, &width) in widths.iter().enumerate() {
            let last = index + 1 == widths.len();
            let share = if last { rest } else { self.random.between(0, rest) };
            rest -= share;
            parts.push(self.expr_of(width, share, depth - 1));
        }
        parts
    }

    fn leaf(&mut self, width: u8) -> Expr {
        if self.slips() {
            return Expr::Variable(self.random.below(self.widths.len() + 1) as Variable);
        }
        let names = 0..self.widths.len() as Variable;
        let fitting = |&v: &Variable| self.widths[usize::from(v)] == width;
        let variables: Vec<Variable> = names.filter(fitting).collect();
        match self.random.below(16) {
            0 => Expr::Unknown { width },
            1..=12 if !variables.is_empty() => Expr::Variable(self.random.pick(&variables)),
            _ => {
                let number = match self.random.below(4) {
                    0 => u32::MAX,
                    1 => self.random.number() as u32,
                    _ => self.random.below(3) as u32,
                };
                Expr::Constant { width, value: number & mask(width) }
            }
        }
    }
}
