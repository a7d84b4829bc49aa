//! The simulator's calls on a sheet of any bytes, with the refusals in their order.
//!
//! Document 01, "The simulation cycle" and "Order". A call that is refused leaves the
//! state as it was, field for field.

use crate::machine::{Machine, number};
use crate::module::Module;
use crate::sheet::Refusal;
use crate::state::{State, USERS};
use crate::value::Value;

/// A sheet to be simulated, or the number (1 to 11) that every call gives for it.
pub struct Simulator<'a> {
    machine: Result<Machine<'a>, u8>,
}

/// What a run over a list of choices gives beside the state reached.
#[derive(Clone, Copy, Debug, PartialEq, Eq)]
pub struct Run {
    pub accepted: usize,
    /// The number that stopped it, 0 if none did.
    pub number: u8,
}

/// What the plain run gives beside the state reached.
#[derive(Clone, Copy, Debug, PartialEq, Eq)]
pub struct PlainRun {
    pub accepted: u16,
    pub number: u8,
    pub verdict: Verdict,
}

#[derive(Clone, Copy, Debug, PartialEq, Eq)]
pub enum Verdict {
    /// The state reached is quiet.
    Quiet,
    /// All choices ran and it isn't.
    Spent,
    /// The user's allowance was used up before the last choice (47).
    Full,
    /// Nothing was run: the sheet, the state or the user is refused.
    Refused,
}

impl Verdict {
    pub const ALL: [Verdict; 4] =
        [Verdict::Quiet, Verdict::Spent, Verdict::Full, Verdict::Refused];

    pub fn word(self) -> &'static str {
        match self {
            Verdict::Quiet => "quiet",
            Verdict::Spent => "spent",
            Verdict::Full => "full",
            Verdict::Refused => "refused",
        }
    }
}

/// The number that stands for the outcome, 0 where nothing was refused.
pub fn number_of(outcome: Result<(), u8>) -> u8 {
    outcome.err().unwrap_or(0)
}

impl<'a> Simulator<'a> {
    /// Of what `sheet::read` gave.
    pub fn new(reading: &'a Result<Module, Refusal>) -> Simulator<'a> {
        let machine = reading.as_ref().map(Machine::new).map_err(|refusal| refusal.number);
        Simulator { machine }
    }

    /// The machine, where the sheet was read.
    pub fn machine(&self) -> Result<&Machine<'a>, u8> {
        self.machine.as_ref().map_err(|&number| number)
    }

    /// The machine, where the sheet was read and the state fits: 1 to 11, then 31.
    pub fn judged(&self, state: &State) -> Result<&Machine<'a>, u8> {
        let machine = self.machine()?;
        if machine.fits(state) { Ok(machine) } else { Err(number::UNFIT) }
    }

    pub fn start(&self, allowances: [u32; USERS]) -> Result<State, u8> {
        Ok(self.machine()?.start(allowances))
    }

    /// The same of a run, which has one user: 46 after 31.
    pub fn judged_for(&self, state: &State, user: u8) -> Result<&Machine<'a>, u8> {
        let machine = self.judged(state)?;
        if usize::from(user) < USERS { Ok(machine) } else { Err(number::NO_USER) }
    }

    /// 1 to 11, 31, 22, 46, 33 to 35, 47.
    pub fn choose(&self, state: &mut State, user: u8, choice: u8) -> Result<(), u8> {
        self.judged(state)?.choose(state, user, choice)
    }

    /// 1 to 11, 31, 25, 32, 36. The clock is the first of the inputs.
    pub fn instant(&self, state: &mut State, inputs: &[Value]) -> Result<(), u8> {
        self.judged(state)?.instant(state, inputs)
    }

    /// 1 to 11, 31, 46, then choice by choice up to the first that is refused.
    pub fn run(&self, state: &mut State, user: u8, choices: &[u8]) -> Run {
        let machine = match self.judged_for(state, user) {
            Ok(machine) => machine,
            Err(number) => return Run { accepted: 0, number },
        };
        for (accepted, &choice) in choices.iter().enumerate() {
            if let Err(number) = machine.choose(state, user, choice) {
                return Run { accepted, number };
            }
        }
        Run { accepted: choices.len(), number: 0 }
    }

    /// At most so many choices, each the lowest enabled item, else the commit.
    pub fn run_plain(&self, state: &mut State, user: u8, limit: u16) -> PlainRun {
        let machine = match self.judged_for(state, user) {
            Ok(machine) => machine,
            Err(number) => {
                return PlainRun { accepted: 0, number, verdict: Verdict::Refused };
            }
        };
        let mut accepted = 0;
        loop {
            if machine.quiet(state) {
                return PlainRun { accepted, number: 0, verdict: Verdict::Quiet };
            }
            if accepted == limit {
                return PlainRun { accepted, number: 0, verdict: Verdict::Spent };
            }
            if let Err(number) = machine.choose(state, user, machine.lowest(state)) {
                return PlainRun { accepted, number, verdict: Verdict::Full };
            }
            accepted += 1;
        }
    }
}
