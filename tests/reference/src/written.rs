//! Document 02, [10], checked on one module: a thread that meets rule 17, run alone, "goes from
//! its start or any wait to its next wait with the same stores and pending values in the same
//! order" as its statement means, read from the tree without places or jumps.

use crate::calls::{Calls, Reference};
use crate::machine::{Machine, number};
use crate::module::{Module, Stmt, Term};
use crate::pseudocode::Instruction;
use crate::random::Random;
use crate::scattered;
use crate::sheet::Refusal;
use crate::state::{State, USERS};

mod course;

pub use course::{Course, Reading, Write, meaning, meets_rule_17};

/// How much was done.
#[derive(Clone, Copy, Debug, PartialEq, Eq)]
pub struct Counts {
    pub threads: u64,
    /// Ways from a start or a wait to the next wait.
    pub legs: u64,
    pub stores: u64,
    pub deferred: u64,
    /// Legs that wrote more than once.
    pub several: u64,
}

impl Counts {
    pub const NONE: Counts = Counts { threads: 0, legs: 0, stores: 0, deferred: 0, several: 0 };

    pub fn add(&mut self, other: &Counts) {
        self.threads += other.threads;
        self.legs += other.legs;
        self.stores += other.stores;
        self.deferred += other.deferred;
        self.several += other.several;
    }

    fn leg(&mut self, writes: &[Write]) {
        let stores = writes.iter().filter(|write| matches!(write, Write::Stored(..))).count();
        self.legs += 1;
        self.stores += stores as u64;
        self.deferred += (writes.len() - stores) as u64;
        self.several += u64::from(writes.len() > 1);
    }
}

type Outcome = Result<(), String>;

/// Each thread that meets rule 17, from its start and through so many waits.
pub fn check(
    calls: &impl Calls,
    module: &Result<Module, Refusal>,
    reading: Reading,
    waits: usize,
    random: &mut Random,
) -> Result<Counts, String> {
    let reference = Reference::new(module);
    let machine = reference.simulator.machine().map_err(|n| format!("refused: {n}"))?;
    let mut desk = Desk { calls, machine, reading, random, counts: Counts::NONE };
    for (thread, statement) in machine.module().threads.iter().enumerate() {
        if meets_rule_17(&Stmt::forever(statement.clone())) {
            desk.counts.threads += 1;
            let from = |clause| format!("thread {thread}: {clause}");
            desk.thread(thread, statement, waits).map_err(from)?;
        }
    }
    Ok(desk.counts)
}

struct Desk<'a, C: Calls> {
    calls: &'a C,
    machine: &'a Machine<'a>,
    reading: Reading,
    random: &'a mut Random,
    counts: Counts,
}

impl<C: Calls> Desk<'_, C> {
    /// At a wait anything may happen, so each leg begins on values of its own.
    fn thread(&mut self, thread: usize, statement: &Stmt, waits: usize) -> Outcome {
        let mut to_do = Stmt::forever(statement.clone());
        let mut place = 0;
        for _ in 0..=waits {
            let mut state = scattered::anywhere(self.machine, self.random);
            if self.random.chance(1, 2) {
                scattered::pend(&mut state, self.machine, self.random);
            }
            state.places[thread] = place;
            let terms;
            (terms, to_do) = self.leg(thread, &mut state, &to_do)?;
            if self.machine.code()[thread][usize::from(state.places[thread])]
                != Instruction::Wait(&terms)
            {
                return Err(format!("stops at another wait than {terms:?}"));
            }
            place = state.places[thread] + 1;
        }
        Ok(())
    }

    /// From here to the next wait: what it waits for, and what remains to do.
    fn leg(
        &mut self,
        thread: usize,
        state: &mut State,
        to_do: &Stmt,
    ) -> Result<(Vec<Term>, Stmt), String> {
        let mut expected = state.clone();
        let (writes, course) = meaning(self.machine.module(), self.reading, &expected, to_do);
        let Course::Stops(terms, rest) = course else {
            return Err(format!("{to_do:?} ends"));
        };
        let done = self.alone(thread, state)?;
        if done != writes {
            return Err(format!("wrote {done:?}, not {writes:?}"));
        }
        writes.iter().for_each(|write| write.make(self.machine.module(), &mut expected));
        if (&state.values, &state.pending) != (&expected.values, &expected.pending) {
            return Err("other values or pending values than those written".into());
        }
        self.counts.leg(&writes);
        Ok((terms, rest))
    }

    /// The thread alone to its next wait, in at most twice its number of instructions.
    fn alone(&mut self, thread: usize, state: &mut State) -> Result<Vec<Write>, String> {
        let code = &self.machine.code()[thread];
        let user = self.random.below(USERS) as u8;
        let mut writes = Vec::new();
        for _ in 0..=2 * code.len() {
            let instruction = code[usize::from(state.places[thread])];
            let number = self.calls.choose(state, user, thread as u8);
            match (instruction, number) {
                (Instruction::Wait(_), number::NOT_ENABLED) => return Ok(writes),
                (Instruction::Wait(_), _) | (_, 1..) => {
                    return Err(format!("{instruction:?} gives {number}"));
                }
                _ => writes.extend(shown(self.machine.module(), instruction, state)),
            }
        }
        Err("no wait is reached".into())
    }
}

/// What an instruction has written, as the state after it shows.
fn shown(module: &Module, instruction: Instruction, state: &State) -> Option<Write> {
    match instruction {
        Instruction::Set(target, _) => {
            Some(Write::Stored(target, state.values[usize::from(target)]))
        }
        Instruction::Later(target, _) => {
            let pending = state.pending[usize::from(target - module.inputs)];
            Some(Write::Deferred(target, pending.value()?))
        }
        _ => None,
    }
}
