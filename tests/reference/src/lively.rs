//! Random modules that run: few widths, threads that wait, wires over registers.

use crate::encode::encode;
use crate::functions::{self, With};
use crate::generate::{operand_widths, operator};
use crate::module::{Edge, Expr, Function, Module, Stmt, Term, Variable};
use crate::random::Random;
use crate::sheet;
use crate::value::mask;

#[derive(Clone, Copy, Debug, PartialEq, Eq)]
pub enum Kind {
    /// As document 01's numbers 12 to 20 ask: each register has one writer and one way
    /// of being written, threads wait for the clock only, wires read lower ones only.
    Extractable,
    /// Threads share registers, wait for any edge of any variable or not at all; a wire
    /// may read itself or a higher one.
    Events,
}

#[derive(Clone, Copy, Debug, PartialEq, Eq)]
pub enum Size {
    /// Few enough states to visit them all.
    Tiny,
    /// A handful of everything, now and then as much as a sheet allows.
    Usual,
}

/// A random module whose sheet is accepted.
pub fn module(kind: Kind, size: Size, random: &mut Random) -> Module {
    module_by(kind, size, With::AsRead, random)
}

pub fn module_by(kind: Kind, size: Size, with: With, random: &mut Random) -> Module {
    loop {
        let with = with.drawn(random);
        let module = Generator::new(kind, size, random).module(with);
        if sheet::read_with_functions(&encode(&module)).is_ok() {
            return module;
        }
    }
}

struct Generator<'a> {
    random: &'a mut Random,
    kind: Kind,
    size: Size,
    inputs: u8,
    registers: u8,
    widths: Vec<u8>,
    functions: Vec<Function>,
    /// By register, of an extractable module: the thread that writes it, and whether by
    /// plain assignment.
    writers: Vec<(usize, bool)>,
    /// How many waits an extractable module may still get.
    waits: usize,
}

/// The part of the module that an expression stands in.
#[derive(Clone, Copy)]
enum Part {
    Wire(Variable),
    Thread(usize),
}

impl<'a> Generator<'a> {
    fn new(kind: Kind, size: Size, random: &'a mut Random) -> Generator<'a> {
        let (inputs, registers, waits) = (0, 0, 32);
        let (widths, functions, writers) = (Vec::new(), Vec::new(), Vec::new());
        Generator { random, kind, size, inputs, registers, widths, functions, writers, waits }
    }

    fn module(&mut self, with: bool) -> Module {
        self.inputs = self.count(1, 3, 16);
        self.registers = self.count(1, 5, 32);
        let wires = self.count(0, 5, 32);
        let threads = usize::from(self.count(1, 4, 8));
        let first_wire = self.inputs + self.registers;
        let variables = first_wire + wires;
        self.widths = self.variable_widths(variables);
        if with {
            self.functions = functions::functions(&self.widths, self.random);
        }
        self.writers = (0..self.registers)
            .map(|_| (self.random.below(threads), self.random.chance(1, 4)))
            .collect();
        let wires = (first_wire..variables).map(|v| self.wire(v)).collect();
        // A wait for each thread's beginning is kept back.
        self.waits -= threads;
        let threads = (0..threads).map(|thread| self.thread(thread)).collect();
        let (widths, functions) = (self.widths.clone(), self.functions.clone());
        let (inputs, registers) = (self.inputs, self.registers);
        Module { inputs, registers, widths, functions, wires, threads }
    }

    fn count(&mut self, least: usize, usual: usize, most: usize) -> u8 {
        let count = match self.size {
            Size::Tiny => self.random.between(least, 2),
            Size::Usual if self.random.chance(1, 24) => most,
            Size::Usual => self.random.between(least, usual),
        };
        count as u8
    }

    /// A few widths only, so that variables meet in expressions.
    fn variable_widths(&mut self, variables: u8) -> Vec<u8> {
        let widths = match self.size {
            Size::Tiny => vec![1, 1, 1, 2],
            Size::Usual => {
                let usual = self.random.between(2, 5) as u8;
                vec![1, 1, usual, usual, self.random.pick(&[4, 8, 16, 31, 32, 32])]
            }
        };
        (0..variables).map(|v| if v == 0 { 1 } else { self.random.pick(&widths) }).collect()
    }

    fn extractable(&self) -> bool {
        self.kind == Kind::Extractable
    }

    fn width(&self, variable: Variable) -> u8 {
        self.widths[usize::from(variable)]
    }

    fn is_register(&self, variable: Variable) -> bool {
        (self.inputs..self.inputs + self.registers).contains(&variable)
    }

    // ---- expressions

    fn wire(&mut self, variable: Variable) -> Expr {
        self.expr(self.width(variable), Part::Wire(variable))
    }

    fn expr(&mut self, width: u8, part: Part) -> Expr {
        let nodes = self.random.pick(&[1, 2, 3, 4, 8]);
        self.expr_of(width, nodes, part)
    }

    /// An expression of the width with about so many nodes.
    fn expr_of(&mut self, width: u8, nodes: usize, part: Part) -> Expr {
        if nodes <= 1 {
            return self.leaf(width, part);
        }
        if let Some(number) = functions::pick(&self.functions, width, self.random) {
            let widths = self.functions[usize::from(number)].parameters.clone();
            return Expr::Call(number, self.parts(widths, nodes, part));
        }
        let operator = operator(width, self.random);
        let other = self.random.pick(&self.widths);
        let widths = operand_widths(operator, width, other);
        Expr::Operation(operator, self.parts(widths, nodes, part))
    }

    fn parts(&mut self, widths: Vec<u8>, nodes: usize, part: Part) -> Vec<Expr> {
        let share = (nodes - 1).div_ceil(widths.len());
        widths.into_iter().map(|width| self.expr_of(width, share, part)).collect()
    }

    fn leaf(&mut self, width: u8, part: Part) -> Expr {
        let variables: Vec<Variable> = (0..self.widths.len() as u8)
            .filter(|&v| self.width(v) == width && self.may_read(part, v))
            .collect();
        match self.random.below(64) {
            0 => Expr::Unknown { width },
            1..=48 if !variables.is_empty() => Expr::Variable(self.random.pick(&variables)),
            _ => self.constant(width),
        }
    }

    /// Small numbers and the greatest one more often than others.
    fn constant(&mut self, width: u8) -> Expr {
        let number = match self.random.below(4) {
            0 => u32::MAX,
            1 => self.random.number() as u32,
            _ => self.random.below(3) as u32,
        };
        Expr::Constant { width, value: number & mask(width) }
    }

    fn may_read(&mut self, part: Part, variable: Variable) -> bool {
        let lower = match part {
            Part::Wire(wire) => variable < wire,
            Part::Thread(_) => true,
        };
        match self.kind {
            Kind::Events => lower || self.random.chance(1, 8),
            Kind::Extractable => lower && variable != 0 && !self.is_private(variable, part),
        }
    }

    /// Whether another thread writes it by plain assignment.
    fn is_private(&self, variable: Variable, part: Part) -> bool {
        let reader = match part {
            Part::Wire(_) => None,
            Part::Thread(thread) => Some(thread),
        };
        self.is_register(variable) && {
            let (writer, plain) = self.writers[usize::from(variable - self.inputs)];
            plain && reader != Some(writer)
        }
    }

    // ---- statements

    fn thread(&mut self, thread: usize) -> Stmt {
        let room = match self.size {
            Size::Tiny => self.random.between(1, 3),
            Size::Usual => self.random.pick(&[2, 3, 5, 8, 12, 20]),
        };
        let body = match self.random.chance(3, 4) {
            true => self.with_reset(thread, room),
            false => self.block(thread, room),
        };
        if !self.extractable() && self.random.chance(1, 8) {
            return body;
        }
        self.waits += usize::from(self.extractable());
        Stmt::sequence(self.wait(), body)
    }

    /// A body that now and then sets all its registers to constants: on an input, or
    /// where a condition fails, as it does on x. So they become known.
    fn with_reset(&mut self, thread: usize, room: usize) -> Stmt {
        let resets = self.targets(thread).into_iter().map(|(target, plain)| {
            let value = self.constant(self.width(target));
            if plain { Stmt::Set(target, value) } else { Stmt::Later(target, value) }
        });
        let resets = Stmt::list(resets.collect());
        let body = self.block(thread, room);
        match self.inputs > 1 && self.random.chance(1, 2) {
            true => {
                let input = self.random.between(1, usize::from(self.inputs) - 1) as u8;
                Stmt::if_else(Expr::Variable(input), resets, body)
            }
            false => Stmt::if_else(self.condition(thread), body, resets),
        }
    }

    /// Statements of about so many instructions.
    fn block(&mut self, thread: usize, room: usize) -> Stmt {
        let mut statements = Vec::new();
        let mut rest = room;
        while rest > 0 && !self.random.chance(1, 12) {
            let share = self.random.between(1, rest);
            statements.push(self.stmt(thread, share));
            rest -= share;
        }
        Stmt::list(statements)
    }

    fn stmt(&mut self, thread: usize, room: usize) -> Stmt {
        match self.random.below(16) {
            0 | 1 if room >= 2 => {
                Stmt::when(self.condition(thread), self.block(thread, room - 1))
            }
            2 | 3 if room >= 3 => {
                let first = self.random.between(0, room - 2);
                Stmt::if_else(
                    self.condition(thread),
                    self.block(thread, first),
                    self.block(thread, room - 2 - first),
                )
            }
            4 if room >= 3 && self.waits > 0 => {
                Stmt::while_loop(self.condition(thread), self.loop_body(thread, room - 2))
            }
            5 if room >= 3 && self.waits > 0 => Stmt::forever(self.loop_body(thread, room - 1)),
            6..=8 if self.waits > 0 => self.wait(),
            _ => self.assignment(thread),
        }
    }

    /// A body that waits; in a module that isn't extractable not always.
    fn loop_body(&mut self, thread: usize, room: usize) -> Stmt {
        if !self.extractable() && self.random.chance(1, 8) {
            return self.block(thread, room);
        }
        let wait = self.wait();
        let block = self.block(thread, room - 1);
        match self.random.chance(1, 2) {
            true => Stmt::sequence(wait, block),
            false => Stmt::sequence(block, wait),
        }
    }

    fn condition(&mut self, thread: usize) -> Expr {
        let width = self.random.pick(&self.widths);
        self.expr(width, Part::Thread(thread))
    }

    /// The registers that a thread may assign, and whether by plain assignment.
    fn targets(&self, thread: usize) -> Vec<(Variable, bool)> {
        let own = |writer: usize| !self.extractable() || writer == thread;
        let registers = (self.inputs..).zip(&self.writers).filter(|(_, writer)| own(writer.0));
        registers.map(|(register, writer)| (register, writer.1)).collect()
    }

    fn assignment(&mut self, thread: usize) -> Stmt {
        let targets = self.targets(thread);
        if targets.is_empty() {
            return Stmt::Empty;
        }
        let (target, mut plain) = self.random.pick(&targets);
        if !self.extractable() && self.random.chance(1, 4) {
            plain = !plain;
        }
        let value = self.expr(self.width(target), Part::Thread(thread));
        match plain {
            false => Stmt::Later(target, value),
            true if !self.extractable() && self.random.chance(1, 6) => {
                // The assignment must not fire the wait behind it.
                let term = Term { edge: Edge::Any, variable: target };
                Stmt::sequence(Stmt::Set(target, value), Stmt::Wait(vec![term]))
            }
            true => Stmt::Set(target, value),
        }
    }

    /// For the clock; or for anything, now and then twice, where one change must not
    /// fire both.
    fn wait(&mut self) -> Stmt {
        if self.extractable() {
            self.waits -= 1;
            return Stmt::posedge(0);
        }
        let terms = self.random.pick(&[1, 1, 2, 2, 3, 8]);
        let wait = Stmt::Wait((0..terms).map(|_| self.term()).collect());
        match self.random.chance(1, 6) {
            true => Stmt::sequence(wait.clone(), wait),
            false => wait,
        }
    }

    /// Clock, registers and the rest in equal parts. Posedge and negedge stand on one-bit
    /// variables only.
    fn term(&mut self) -> Term {
        let variable = match self.random.below(3) {
            0 => 0,
            1 => self.inputs + self.random.below(self.registers.into()) as u8,
            _ => self.random.below(self.widths.len()) as u8,
        };
        let edge = match self.width(variable) {
            1 => self.random.pick(&Edge::ALL),
            _ => Edge::Any,
        };
        Term { edge, variable }
    }
}
