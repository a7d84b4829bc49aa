//! Random modules that extraction accepts, of every shape that its rules allow.

use crate::encode::encode;
use crate::extraction::extract;
use crate::extraction::text::Way;
use crate::functions::{self, With};
use crate::module::{Function, Module, Variable};
use crate::random::Random;
use crate::sheet::{MOST_WIDTH, read_with_functions};

mod expressions;
mod large;
mod statements;

pub use large::{of_nodes, with_many_branches};

/// A random module that extraction accepts.
pub fn module(random: &mut Random) -> Module {
    module_by(With::AsRead, random)
}

pub fn module_by(with: With, random: &mut Random) -> Module {
    loop {
        let module = any_module(with, random);
        if read_with_functions(&encode(&module)).is_ok() && extract(&module).is_ok() {
            return module;
        }
    }
}

/// One that meets the rules, but for the number of its waits and nodes and its size.
fn any_module(with: With, random: &mut Random) -> Module {
    let room = random.pick(&[1, 3, 5, 8, 12, 20, 40]);
    let with = with.drawn(random);
    Generator::new(random, room).module(with)
}

pub struct Generator<'a> {
    random: &'a mut Random,
    inputs: u8,
    registers: u8,
    widths: Vec<u8>,
    functions: Vec<Function>,
    /// By register: the thread that writes it, if one does, and how.
    writers: Vec<(Option<usize>, Way)>,
    /// The most instructions of a thread, about.
    room: usize,
    /// How many nodes an expression has at most, about.
    nodes: usize,
}

/// The part of the module that an expression stands in.
#[derive(Clone, Copy)]
enum Part {
    Wire(Variable),
    Thread(usize),
}

impl<'a> Generator<'a> {
    fn new(random: &'a mut Random, room: usize) -> Generator<'a> {
        let nodes = random.pick(&[1, 2, 3, 5, 8, 20]);
        let (widths, functions, writers) = (Vec::new(), Vec::new(), Vec::new());
        Generator { random, inputs: 0, registers: 0, widths, functions, writers, room, nodes }
    }

    fn module(&mut self, with: bool) -> Module {
        self.inputs = self.count(1, 4, 16);
        self.registers = self.count(1, 6, 32);
        let wires = self.count(0, 6, 32);
        let threads = usize::from(self.count(1, 5, 8));
        let first_wire = self.inputs + self.registers;
        let variables = first_wire + wires;
        self.widths = self.variable_widths(variables);
        if with {
            self.functions = functions::functions(&self.widths, self.random);
        }
        self.writers = (0..self.registers).map(|_| self.writer(threads)).collect();
        let wires = (first_wire..variables).map(|v| self.wire(v)).collect();
        let threads = (0..threads).map(|thread| self.thread(thread)).collect();
        let (widths, functions) = (self.widths.clone(), self.functions.clone());
        let (inputs, registers) = (self.inputs, self.registers);
        Module { inputs, registers, widths, functions, wires, threads }
    }

    fn count(&mut self, least: usize, usual: usize, most: usize) -> u8 {
        let count = match self.random.below(24) {
            0 => most,
            1 => self.random.between(least, most),
            _ => self.random.between(least, usual),
        };
        count as u8
    }

    /// A few widths only, so that variables meet in expressions.
    fn variable_widths(&mut self, variables: u8) -> Vec<u8> {
        let any = self.random.between(1, MOST_WIDTH.into()) as u8;
        let widths = [1, 1, any, any, self.random.pick(&[2, 7, 8, 9, 16, 17, 31, 32])];
        (0..variables).map(|v| if v == 0 { 1 } else { self.random.pick(&widths) }).collect()
    }

    /// Now and then nobody.
    fn writer(&mut self, threads: usize) -> (Option<usize>, Way) {
        let thread = self.random.chance(7, 8).then(|| self.random.below(threads));
        (thread, if self.random.chance(1, 3) { Way::Plain } else { Way::Later })
    }

    fn width(&self, variable: Variable) -> u8 {
        self.widths[usize::from(variable)]
    }

    /// The registers that a thread writes, and how.
    fn targets(&self, thread: usize) -> Vec<(Variable, Way)> {
        let own = (self.inputs..).zip(&self.writers).filter(|(_, w)| w.0 == Some(thread));
        own.map(|(register, writer)| (register, writer.1)).collect()
    }
}
