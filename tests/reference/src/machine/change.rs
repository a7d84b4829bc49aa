//! What a change of values does: waits fire, wires become due.

use super::Machine;
use crate::module::{Term, Variable};
use crate::state::State;
use crate::value::{Value, fires};

/// A variable that went to another value.
struct Change {
    variable: Variable,
    before: Value,
    now: Value,
}

impl Machine<'_> {
    /// Stores the values together as one change. Storing an equal value is no change.
    pub(super) fn change(&self, state: &mut State, stores: &[(Variable, Value)]) {
        let mut changes = Vec::new();
        for &(variable, now) in stores {
            let slot = &mut state.values[usize::from(variable)];
            let before = std::mem::replace(slot, now);
            if before != now {
                changes.push(Change { variable, before, now });
            }
        }
        if !changes.is_empty() {
            self.fire(state, &changes);
            self.mark(state, &changes);
        }
    }

    /// Each thread at a wait that fires goes on, once.
    fn fire(&self, state: &mut State, changes: &[Change]) {
        let fired = |term: &Term| {
            let mut own = changes.iter().filter(|change| change.variable == term.variable);
            own.any(|change| fires(term.edge, change.before, change.now))
        };
        for thread in 0..self.code.len() {
            if self.awaited(state, thread).is_some_and(|terms| terms.iter().any(fired)) {
                state.places[thread] += 1;
            }
        }
    }

    /// Each wire that reads a changed variable is due.
    fn mark(&self, state: &mut State, changes: &[Change]) {
        for (due, reads) in state.due.iter_mut().zip(&self.reads) {
            *due |= changes.iter().any(|change| reads.contains(&change.variable));
        }
    }
}
