//! What documents 01 and 02 claim of a list of calls.

use super::{List, Outcome};
use crate::calls::Calls;
use crate::state::{State, USERS};

impl<C: Calls> List<'_, C> {
    /// The clauses, wherever the list ends.
    pub(super) fn holds(&mut self) -> Outcome {
        let State { time, counts, allowances, .. } = self.state;
        let accepted = (self.counts.instants, self.by_user);
        if (time, counts) != accepted {
            return Err(format!("time and counts {:?}, not {accepted:?}", (time, counts)));
        }
        if self.state.total() != self.counts.choices {
            return Err(format!("counts {counts:?}, of {} choices", self.counts.choices));
        }
        if allowances != self.allowances {
            return Err(format!("allowances {allowances:?}, not {:?}", self.allowances));
        }
        let instructions: usize = self.machine.code().iter().map(Vec::len).sum();
        let bound = instructions as u64 + (1 << self.machine.module().wires.len());
        if self.since > bound {
            return Err(format!("{} choices since the last instant", self.since));
        }
        if self.machine.quiet(&self.state) { self.as_in_the_book() } else { self.goes_on() }
    }

    /// Some choice of each user with choices left is accepted.
    fn goes_on(&self) -> Outcome {
        let choice = self.machine.lowest(&self.state);
        for user in 0..USERS as u8 {
            let expected = if self.state.has_room(user) { 0 } else { 47 };
            let number = self.calls.choose(&mut self.state.clone(), user, choice);
            if number != expected {
                let user = format!("user {user}'s");
                return Err(format!("not quiet, but choice {choice}, {user}, gives {number}"));
            }
        }
        Ok(())
    }

    fn as_in_the_book(&self) -> Outcome {
        let module = self.machine.module();
        for variable in 0..module.widths.len() {
            let expected = self.book.values.get(variable as u8);
            let found = self.state.values[variable];
            if found != expected {
                return Err(format!("quiet: v{variable} is {found:?}, not {expected:?}"));
            }
        }
        let places = &self.state.places[..module.threads.len()];
        match places == self.book.places {
            true => Ok(()),
            false => Err(format!("quiet: places {places:?}, not {:?}", self.book.places)),
        }
    }
}
