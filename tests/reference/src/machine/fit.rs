//! Whether states and inputs fit the module (31 and 25).

use super::Machine;
use crate::state::{Pending, State};
use crate::value::Value;

impl Machine<'_> {
    /// Values and pending values fit their widths, places lie inside their threads, no mark or
    /// pending value stands past the sheet's, and no count is above its allowance.
    pub fn fits(&self, state: &State) -> bool {
        self.values_fit(state)
            && self.pending_fit(state)
            && self.places_fit(state)
            && !state.due[self.module.wires.len()..].contains(&true)
            && counts_fit(state)
    }

    fn values_fit(&self, state: &State) -> bool {
        slots_fit(&self.module.widths, &state.values)
    }

    fn pending_fit(&self, state: &State) -> bool {
        let first = usize::from(self.module.inputs);
        let registers = usize::from(self.module.registers);
        let widths = &self.module.widths[first..first + registers];
        let (own, past) = state.pending.split_at(registers);
        let fits = |(&width, pending): (&u8, &Pending)| {
            pending.value().is_none_or(|value| value.fits(width))
        };
        widths.iter().zip(own).all(fits) && !past.iter().any(|pending| pending.held)
    }

    fn places_fit(&self, state: &State) -> bool {
        let mut places = self.code.iter().zip(state.places);
        places.all(|(code, place)| usize::from(place) < code.len())
    }

    /// There are as many inputs as the module has, and all of them fit.
    pub fn inputs_fit(&self, inputs: &[Value]) -> bool {
        inputs.len() == usize::from(self.module.inputs)
            && slots_fit(&self.module.widths, inputs)
    }
}

/// A count may be its allowance, not above.
fn counts_fit(state: &State) -> bool {
    let mut pairs = state.counts.into_iter().zip(state.allowances);
    pairs.all(|(count, allowance)| count <= allowance.into())
}

/// As far as both go.
fn slots_fit(widths: &[u8], slots: &[Value]) -> bool {
    widths.iter().zip(slots).all(|(&width, slot)| slot.fits(width))
}
