//! The accepted calls, by the order that a list takes.

use super::{List, Outcome};
use crate::calls::Calls;
use crate::machine::{COMMIT, Machine};
use crate::random::Random;
use crate::simulator::{PlainRun, Verdict};
use crate::state::{MOST, State};

/// Which of the enabled items is taken.
#[derive(Clone, Copy, Debug, PartialEq, Eq)]
pub enum Order {
    Any,
    /// Always the highest, as against the plain run's lowest.
    Highest,
    WiresFirst,
    ThreadsFirst,
    /// Mostly the one taken last.
    Same,
}

impl Order {
    pub const ALL: [Order; 5] =
        [Order::Any, Order::Highest, Order::WiresFirst, Order::ThreadsFirst, Order::Same];

    /// An enabled item, or the commit where there is none.
    fn pick(self, machine: &Machine, state: &State, last: u8, random: &mut Random) -> u8 {
        let items: Vec<u8> = machine.enabled(state).collect();
        let threads = machine.code().len() as u8;
        let (low, high): (Vec<u8>, Vec<u8>) = items.iter().partition(|&&item| item < threads);
        let one_of = |items: &[u8], random: &mut Random| match items.is_empty() {
            true => COMMIT,
            false => random.pick(items),
        };
        match self {
            Order::Highest => items.last().copied().unwrap_or(COMMIT),
            Order::WiresFirst if !high.is_empty() => one_of(&high, random),
            Order::ThreadsFirst if !low.is_empty() => one_of(&low, random),
            Order::Same if items.contains(&last) && random.chance(7, 8) => last,
            _ => one_of(&items, random),
        }
    }
}

impl<C: Calls> List<'_, C> {
    /// A choice, a run over a list or a plain run, of a user with choices left.
    pub(super) fn accepted_call(&mut self, user: u8) -> Outcome {
        self.counts.calls += 1;
        match self.random.below(8) {
            0..=3 => self.one_choice(user),
            4..=6 => self.some_choices(user),
            _ => self.plain_run(user),
        }
    }

    fn one_choice(&mut self, user: u8) -> Outcome {
        let choice = self.order.pick(self.machine, &self.state, 0, self.random);
        self.last = format!("choice {choice} of user {user}");
        match self.calls.choose(&mut self.state, user, choice) {
            0 => self.accept(user, 1),
            number => Err(format!("an enabled choice is refused with {number}")),
        }
    }

    /// Now and then with one among them that is refused, and with more behind it; they may be more
    /// than the user has left.
    fn some_choices(&mut self, user: u8) -> Outcome {
        let mut state = State { allowances: MOST, ..self.state.clone() };
        let mut choices = Vec::new();
        let mut last = 0;
        for _ in 0..self.random.pick(&[1, 2, 4, 8, 20]) {
            if self.machine.quiet(&state) {
                break;
            }
            last = self.order.pick(self.machine, &state, last, self.random);
            choices.push(last);
            self.machine.choose(&mut state, user, last).expect("enabled");
        }
        if self.random.chance(1, 8) {
            let bad = self.random.pick(&[254, self.machine.items() as u8]);
            choices.extend([bad, 0, COMMIT]);
        }
        self.last = format!("run {choices:?} of user {user}");
        let room = self.room(user);
        let (found, number) = self.calls.run(&mut self.state, user, &choices);
        if found > choices.len() || (number == 0) != (found == choices.len()) {
            return Err(format!("{found} of {} accepted, and {number}", choices.len()));
        }
        if found as u64 > room || (number == 47 && found as u64 != room) {
            return Err(format!("{found} accepted, and {number}, with {room} left"));
        }
        self.accept(user, found)
    }

    /// How many choices the user has left.
    fn room(&self, user: u8) -> u64 {
        let user = usize::from(user);
        u64::from(self.allowances[user]) - self.by_user[user]
    }

    /// "It says quiet exactly when the state reached is quiet, spent exactly when N choices ran and
    /// it isn't", and else 47, met before the Nth.
    fn plain_run(&mut self, user: u8) -> Outcome {
        let room = self.room(user);
        let limit = self.random.pick(&[0, 1, 2, 3, 10, u16::MAX]);
        self.last = format!("plain run of at most {limit} of user {user}");
        let PlainRun { accepted, number, verdict } =
            self.calls.run_plain(&mut self.state, user, limit);
        if accepted > limit {
            return Err(format!("{accepted} accepted, of at most {limit}"));
        }
        let expected = match self.machine.quiet(&self.state) {
            true => Verdict::Quiet,
            false if accepted == limit => Verdict::Spent,
            false if u64::from(accepted) == room => Verdict::Full,
            false => {
                return Err(format!("says {verdict:?} after {accepted}, and it isn't quiet"));
            }
        };
        if verdict != expected {
            return Err(format!("says {verdict:?} after {accepted}, not {expected:?}"));
        }
        if number != if expected == Verdict::Full { 47 } else { 0 } {
            return Err(format!("stopped by {number} after {accepted}"));
        }
        self.accept(user, accepted.into())
    }
}
