//! Document 02, [9], checked on one module that extraction accepts: "after a change of inputs on
//! a quiet state or after a commit, a plain run long enough to reach quiet or the next commit
//! stores up to there exactly those wires that read a variable whose value changed, lower wires
//! included, each once."

use crate::calls::{Calls, Reference};
use crate::machine::{COMMIT, Machine, variables};
use crate::module::Module;
use crate::random::Random;
use crate::scattered;
use crate::sheet::Refusal;
use crate::simulator::Verdict;
use crate::state::{MOST, State, USERS};
use crate::states::fitting_value;
use crate::value::Value;

/// How much was done.
#[derive(Clone, Copy, Debug, PartialEq, Eq)]
pub struct Counts {
    pub instants: u64,
    pub commits: u64,
    pub stores: u64,
    /// Runs that stored fewer wires than the module has, and more than none.
    pub partly: u64,
}

impl Counts {
    pub const NONE: Counts = Counts { instants: 0, commits: 0, stores: 0, partly: 0 };

    pub fn add(&mut self, other: &Counts) {
        self.instants += other.instants;
        self.commits += other.commits;
        self.stores += other.stores;
        self.partly += other.partly;
    }
}

/// Which wires are held to be stored. All but the first are misreadings, by which the check
/// itself is tested.
#[derive(Clone, Copy, Debug, PartialEq, Eq)]
pub enum Claim {
    AsStated,
    /// What changed counts from after the instant or the commit.
    SinceAfterTheChange,
    /// Only what the instant or the commit changed counts.
    LowerWiresLeftOut,
    /// Each of them twice.
    Twice,
}

type Outcome = Result<(), String>;

/// Drives the module by random instants, from the start and from other states at rest.
pub fn check(
    calls: &impl Calls,
    reading: &Result<Module, Refusal>,
    claim: Claim,
    instants: usize,
    random: &mut Random,
) -> Result<Counts, String> {
    let reference = Reference::new(reading);
    let machine = reference.simulator.machine().map_err(|n| format!("refused: {n}"))?;
    let mut state = State::ZERO;
    if calls.start(&mut state, MOST) != 0 {
        return Err("the start is refused".into());
    }
    calls.run_plain(&mut state, 0, u16::MAX);
    let mut desk = Desk { calls, machine, claim, random, counts: Counts::NONE };
    for _ in 0..instants {
        desk.elsewhere(&mut state);
        desk.instant(&mut state)?;
        desk.lone_commit()?;
    }
    Ok(desk.counts)
}

struct Desk<'a, C: Calls> {
    calls: &'a C,
    machine: &'a Machine<'a>,
    claim: Claim,
    random: &'a mut Random,
    counts: Counts,
}

impl<C: Calls> Desk<'_, C> {
    /// Now and then the next instant comes on a quiet state that this list didn't come to.
    fn elsewhere(&mut self, state: &mut State) {
        if self.random.chance(1, 3)
            && let Some(other) = scattered::at_rest(self.machine, self.random)
        {
            *state = other;
        }
    }

    /// An instant, and each commit that the runs after it come to.
    fn instant(&mut self, state: &mut State) -> Outcome {
        let module = self.machine.module();
        let widths = &module.widths[..module.inputs.into()];
        let inputs: Vec<Value> =
            widths.iter().map(|&width| fitting_value(width, self.random)).collect();
        let before = state.clone();
        let number = self.calls.instant(state, &inputs);
        if number != 0 {
            return Err(format!("instant refused with {number} in a quiet state"));
        }
        self.counts.instants += 1;
        let mut commit = self.follow(&before, state)?;
        while commit {
            commit = self.commit(state)?;
        }
        Ok(())
    }

    /// A commit on a state that no run need have come to.
    fn lone_commit(&mut self) -> Outcome {
        let Some(mut state) = scattered::at_rest(self.machine, self.random) else {
            return Ok(());
        };
        scattered::pend(&mut state, self.machine, self.random);
        self.commit(&mut state).map(|_| ())
    }

    /// Whether the run after it came to another commit.
    fn commit(&mut self, state: &mut State) -> Result<bool, String> {
        let before = state.clone();
        let user = self.random.below(USERS) as u8;
        let number = self.calls.choose(state, user, COMMIT);
        if number != 0 {
            return Err(format!("commit refused with {number}"));
        }
        self.counts.commits += 1;
        self.follow(&before, state)
    }

    /// The plain run up to quiet or the next commit, choice by choice; whether it is a commit.
    fn follow(&mut self, before: &State, state: &mut State) -> Result<bool, String> {
        let user = self.random.below(USERS) as u8;
        let after = state.clone();
        let mut stores = Vec::new();
        let mut choices = 0;
        let commit = loop {
            let mut next = state.clone();
            let run = self.calls.run_plain(&mut next, user, 1);
            match (run.accepted, run.verdict) {
                (0, Verdict::Quiet) => break false,
                (1, _) if committed(state, &next) => break true,
                (1, _) => stores.extend(stored(state, &next)),
                _ => return Err(format!("a plain run of one choice gives {run:?}")),
            }
            *state = next;
            choices += 1;
            if choices > self.enough() {
                return Err(format!("no quiet and no commit within {choices} choices"));
            }
        };
        self.as_one_run(&after, state, user, choices)?;
        let expected = self.expected(before, &after, state);
        if stores != expected {
            return Err(format!("stored {stores:?}, claimed {expected:?}"));
        }
        self.counts.stores += stores.len() as u64;
        let wires = self.machine.module().wires.len();
        self.counts.partly += u64::from(!stores.is_empty() && stores.len() < wires);
        Ok(commit)
    }

    /// All threads' instructions and the wires.
    fn enough(&self) -> usize {
        let instructions: usize = self.machine.code().iter().map(Vec::len).sum();
        instructions + self.machine.module().wires.len()
    }

    /// One call for so many choices comes to the same state.
    fn as_one_run(&self, after: &State, there: &State, user: u8, choices: usize) -> Outcome {
        let mut state = after.clone();
        let limit = u16::try_from(choices).map_err(|_| "too long a run")?;
        let run = self.calls.run_plain(&mut state, user, limit);
        match usize::from(run.accepted) == choices && state == *there {
            true => Ok(()),
            false => Err(format!("one run of {choices} choices gives {run:?}")),
        }
    }

    /// The wires that the claim names, rising.
    fn expected(&self, before: &State, after: &State, there: &State) -> Vec<usize> {
        let (from, to) = match self.claim {
            Claim::SinceAfterTheChange => (after, there),
            Claim::LowerWiresLeftOut => (before, after),
            Claim::AsStated | Claim::Twice => (before, there),
        };
        let changed = |variable: u8| {
            let variable = usize::from(variable);
            from.values[variable] != to.values[variable]
        };
        let wires = self.machine.module().wires.iter().enumerate();
        let readers = wires.filter(|(_, wire)| variables(wire).into_iter().any(changed));
        let copies = if self.claim == Claim::Twice { 2 } else { 1 };
        readers.flat_map(|(wire, _)| std::iter::repeat_n(wire, copies)).collect()
    }
}

/// A commit takes all pending values; nothing else takes one.
fn committed(old: &State, new: &State) -> bool {
    let held = |state: &State| state.pending.iter().any(|pending| pending.held);
    held(old) && !held(new)
}

/// The wires whose marks a choice cleared.
fn stored(old: &State, new: &State) -> Vec<usize> {
    (0..old.due.len()).filter(|&wire| old.due[wire] && !new.due[wire]).collect()
}
