//! This implementation's calls with a fault planted.

use reference::calls::{Calls, Reference};
use reference::compiler::Lane;
use reference::extraction::text::Thread;
use reference::extraction::words::{BRANCH, OPERATOR};
use reference::extraction::{MOST_NODES, ROW};
use reference::machine::{Machine, variables};
use reference::module::{Module, Operator};
use reference::samples::FLIP_FLOP;
use reference::sheet::read;
use reference::simulator::{PlainRun, Verdict};
use reference::state::{State, USERS};
use reference::value::Value;

#[derive(Clone, Copy, Debug, PartialEq, Eq)]
pub enum Fault {
    None,
    /// ?: in place of a branch: on x it joins both arms, where the thread takes the other leg.
    ConditionalForBranch,
    /// A low instant makes no wire due.
    WiresAfterRiseOnly,
    /// A thread's later assignments are committed as it arrives at a wait.
    CommitByThread,
    /// Right in the first cycle, idle afterwards.
    IdleAfterFirstCycle,
    /// Nothing run, state handed back.
    NothingRun,
    /// The same table for each module.
    SameTable,
    /// The cycle run hands registers and places back.
    IdleCycleRun,
    /// Refusing everything: each call with a number that it can give.
    RefusingEverything,
    /// The start, extraction and the cycle run are right, all else is refused.
    RefusingToRun,
    /// A plain run tells one choice more than it ran.
    MadeUpCount,
    /// A plain run stops before the last choice that it may run, and says spent.
    EarlySpent,
    /// A plain run says quiet wherever it ends.
    EarlyQuiet,
    /// Every choice is counted for user 0.
    CountedForTheFirst,
    /// An allowance lasts for one choice more.
    OneMore,
    /// A choice that stores a value with an unknown bit loses all its bits.
    UnknownAsAWhole,
    /// A cycle run does.
    UnknownAsAWholeInCycles,
}

pub struct Faulty<'a> {
    pub calls: Reference<'a>,
    pub module: &'a Module,
    pub fault: Fault,
}

impl Faulty<'_> {
    fn machine(&self) -> &Machine<'_> {
        self.calls.simulator.machine().expect("read")
    }

    fn refuses(&self) -> bool {
        matches!(self.fault, Fault::RefusingEverything | Fault::RefusingToRun)
    }

    /// Who a choice is counted for, and the allowances that the state has afterwards.
    fn payer(&self, state: &mut State, user: u8) -> (u8, [u32; USERS]) {
        let allowed = state.allowances;
        match self.fault {
            Fault::CountedForTheFirst if usize::from(user) < USERS => (0, allowed),
            Fault::OneMore => {
                state.allowances = allowed.map(|allowance| allowance.saturating_add(1));
                (user, allowed)
            }
            _ => (user, allowed),
        }
    }

    /// Stores the pending values of the registers that the thread writes.
    fn commit_own(&self, state: &mut State, thread: usize) {
        let first_wire = self.module.inputs + self.module.registers;
        for register in Thread::all(self.module)[thread].registers() {
            if let Some(value) = state.pending[register].value() {
                let variable = self.module.inputs + register as u8;
                assert!(variable < first_wire);
                let changed = state.values[usize::from(variable)] != value;
                state.values[usize::from(variable)] = value;
                state.pending[register].held = false;
                for (due, wire) in state.due.iter_mut().zip(&self.module.wires) {
                    *due |= changed && variables(wire).contains(&variable);
                }
            }
        }
    }
}

impl Calls for Faulty<'_> {
    fn start(&self, state: &mut State, allowances: [u32; USERS]) -> u8 {
        match self.fault {
            Fault::RefusingEverything => 2,
            _ => self.calls.start(state, allowances),
        }
    }

    fn choose(&self, state: &mut State, user: u8, choice: u8) -> u8 {
        if self.refuses() {
            return 33;
        }
        let before = state.clone();
        let (payer, allowed) = self.payer(state, user);
        let number = self.calls.choose(state, payer, choice);
        state.allowances = allowed;
        let thread = usize::from(choice);
        let arrived = thread < self.module.threads.len()
            && !self.machine().enabled(state).any(|item| item == choice);
        match self.fault {
            Fault::CommitByThread if number == 0 && arrived => self.commit_own(state, thread),
            Fault::NothingRun => *state = before,
            Fault::UnknownAsAWhole => {
                let values = state.values.iter_mut().zip(&before.values);
                let changed =
                    values.zip(&self.module.widths).filter(|((now, then), _)| now != then);
                changed.for_each(|((value, _), &width)| lose(value, width));
            }
            _ => {}
        }
        number
    }

    fn run(&self, state: &mut State, user: u8, choices: &[u8]) -> (usize, u8) {
        if usize::from(user) >= USERS {
            return (0, 46);
        }
        for (accepted, &choice) in choices.iter().enumerate() {
            match self.choose(state, user, choice) {
                0 => {}
                number => return (accepted, number),
            }
        }
        (choices.len(), 0)
    }

    fn run_plain(&self, state: &mut State, user: u8, limit: u16) -> PlainRun {
        if self.refuses() {
            return PlainRun { accepted: 0, number: 47, verdict: Verdict::Full };
        }
        let last = limit - u16::from(self.fault == Fault::EarlySpent && limit > 0);
        let mut accepted = 0;
        while accepted < last && !self.machine().quiet(state) {
            let choice = self.machine().lowest(state);
            match self.choose(state, user, choice) {
                0 => accepted += 1,
                number => return PlainRun { accepted, number, verdict: Verdict::Full },
            }
        }
        let quiet = self.fault == Fault::EarlyQuiet || self.machine().quiet(state);
        let verdict = if quiet { Verdict::Quiet } else { Verdict::Spent };
        let told = accepted + u16::from(self.fault == Fault::MadeUpCount && accepted < limit);
        PlainRun { accepted: told, number: 0, verdict }
    }

    fn instant(&self, state: &mut State, inputs: &[Value]) -> u8 {
        if self.refuses() {
            return 32;
        }
        let before = state.clone();
        let number = self.calls.instant(state, inputs);
        match self.fault {
            Fault::WiresAfterRiseOnly if number == 0 && inputs[0] == Value::known(0) => {
                state.due = before.due;
            }
            Fault::IdleAfterFirstCycle if number == 0 && state.time > 2 => {
                state.places = before.places;
            }
            _ => {}
        }
        number
    }

    fn extract(&self, nodes: &mut [u16], rows: &mut [u16]) -> u8 {
        if self.fault == Fault::RefusingEverything {
            return 21;
        }
        let number = self.calls.extract(nodes, rows);
        match self.fault {
            Fault::ConditionalForBranch if number == 0 => {
                let conditional = OPERATOR + u16::from(Operator::Conditional.number());
                let places = place_nodes(nodes, rows);
                for node in (0..MOST_NODES).filter(|&node| !places[node]) {
                    if nodes[4 * node] == BRANCH {
                        nodes[4 * node] = conditional;
                    }
                }
            }
            Fault::SameTable if number == 0 => {
                let reading = read(&FLIP_FLOP.sheet());
                return Reference::new(&reading).extract(nodes, rows);
            }
            _ => {}
        }
        number
    }

    fn cycle(&self, nodes: &[u16], rows: &[u16], lane: &mut Lane, inputs: &[Value]) -> u8 {
        if self.fault == Fault::RefusingEverything {
            return 24;
        }
        let before = lane.clone();
        let number = self.calls.cycle(nodes, rows, lane, inputs);
        if self.fault == Fault::IdleCycleRun {
            (lane.registers, lane.places) = (before.registers, before.places);
        }
        if self.fault == Fault::UnknownAsAWholeInCycles && number == 0 {
            let widths = &self.module.widths[self.module.inputs.into()..];
            let own = lane.registers.iter_mut().zip(widths).take(self.module.registers.into());
            own.for_each(|(value, &width)| lose(value, width));
        }
        number
    }
}

/// x as a whole in the place of a value with an unknown bit.
fn lose(value: &mut Value, width: u8) {
    if !value.is_known() {
        *value = Value::x(width);
    }
}

/// The nodes that a place entry leads to: they must be branches to be accepted at all.
fn place_nodes(nodes: &[u16], rows: &[u16]) -> Vec<bool> {
    let mut places = vec![false; MOST_NODES];
    let entries = rows.chunks_exact(ROW).map(|row| usize::from(row[ROW - 1]));
    entries.for_each(|entry| places[entry] = true);
    for node in (0..MOST_NODES).rev() {
        if places[node] && nodes[4 * node] == BRANCH {
            places[usize::from(nodes[4 * node + 2])] = true;
            places[usize::from(nodes[4 * node + 3])] = true;
        }
    }
    places
}
