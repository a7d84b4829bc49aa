//! The calls that demand 3 speaks of, on one sheet, by whichever implementation.

use crate::compiler::{Compiler, Lane};
use crate::machine::number;
use crate::module::Module;
use crate::sheet::Refusal;
use crate::simulator::{PlainRun, Simulator, number_of};
use crate::state::{State, USERS};
use crate::value::Value;

/// Each gives its number, 0 where nothing was refused; the state becomes the one that the
/// call hands back. A choice and a run have a user.
pub trait Calls {
    fn start(&self, state: &mut State, allowances: [u32; USERS]) -> u8;
    fn choose(&self, state: &mut State, user: u8, choice: u8) -> u8;
    /// How many choices were accepted, and the number.
    fn run(&self, state: &mut State, user: u8, choices: &[u8]) -> (usize, u8);
    fn run_plain(&self, state: &mut State, user: u8, limit: u16) -> PlainRun;
    /// All inputs, the clock first.
    fn instant(&self, state: &mut State, inputs: &[Value]) -> u8;

    /// Clock cycles by events, the inputs from 1 up: for each row an instant with the clock low
    /// and one with the clock high, each with a plain run after it, up to the first that is refused
    /// or stopped; how many instants were done, and the number. 1 to 11, 31 and 46 come first.
    fn run_cycles(&self, state: &mut State, user: u8, inputs: &[Vec<Value>]) -> (usize, u8) {
        let number = self.run_plain(state, user, 0).number;
        if number != 0 {
            return (0, number);
        }
        let mut done = 0;
        for row in inputs {
            for clock in [0, 1] {
                let all = [&[Value::known(clock)], &row[..]].concat();
                let number = match self.instant(state, &all) {
                    0 => self.run_plain(state, user, u16::MAX).number,
                    number => number,
                };
                if number != 0 {
                    return (done, number);
                }
                done += 1;
            }
        }
        (done, 0)
    }

    fn extract(&self, nodes: &mut [u16], rows: &mut [u16]) -> u8;
    /// The inputs from 1 up. A refused one leaves registers, places and wires.
    fn cycle(&self, nodes: &[u16], rows: &[u16], lane: &mut Lane, inputs: &[Value]) -> u8;

    /// Cycle runs one after the other, up to the first that is refused; how many were
    /// accepted, and the number that stopped them. The lane becomes what the last accepted
    /// one gave; where there is none it stays.
    fn cycles(
        &self,
        nodes: &[u16],
        rows: &[u16],
        lane: &mut Lane,
        inputs: &[Vec<Value>],
    ) -> (usize, u8) {
        if inputs.is_empty() {
            // Inputs are judged last, so with too many of them all else is judged.
            let number = self.cycle(nodes, rows, &mut lane.clone(), &[Value::ZERO; 17]);
            return (0, if number == number::INPUTS { 0 } else { number });
        }
        for (accepted, inputs) in inputs.iter().enumerate() {
            let number = self.cycle(nodes, rows, lane, inputs);
            if number != 0 {
                return (accepted, number);
            }
        }
        (inputs.len(), 0)
    }
}

/// This implementation.
pub struct Reference<'a> {
    pub simulator: Simulator<'a>,
    pub compiler: Compiler<'a>,
}

impl<'a> Reference<'a> {
    /// Of what `sheet::read` gave.
    pub fn new(reading: &'a Result<Module, Refusal>) -> Reference<'a> {
        Reference { simulator: Simulator::new(reading), compiler: Compiler::new(reading) }
    }
}

impl Calls for Reference<'_> {
    fn start(&self, state: &mut State, allowances: [u32; USERS]) -> u8 {
        number_of(self.simulator.start(allowances).map(|start| *state = start))
    }

    fn choose(&self, state: &mut State, user: u8, choice: u8) -> u8 {
        number_of(self.simulator.choose(state, user, choice))
    }

    fn run(&self, state: &mut State, user: u8, choices: &[u8]) -> (usize, u8) {
        let run = self.simulator.run(state, user, choices);
        (run.accepted, run.number)
    }

    fn run_plain(&self, state: &mut State, user: u8, limit: u16) -> PlainRun {
        self.simulator.run_plain(state, user, limit)
    }

    fn instant(&self, state: &mut State, inputs: &[Value]) -> u8 {
        number_of(self.simulator.instant(state, inputs))
    }

    fn extract(&self, nodes: &mut [u16], rows: &mut [u16]) -> u8 {
        number_of(self.compiler.extract(nodes, rows))
    }

    fn cycle(&self, nodes: &[u16], rows: &[u16], lane: &mut Lane, inputs: &[Value]) -> u8 {
        // By value a refused cycle run gives 32 marks for each wire.
        let mut next = lane.clone();
        let number = number_of(self.compiler.cycle(nodes, rows, &mut next, inputs));
        if number == 0 {
            *lane = next;
        }
        number
    }
}
