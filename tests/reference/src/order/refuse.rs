//! Refused calls between the others: they change nothing.

use super::{List, Outcome};
use crate::calls::Calls;
use crate::lanes;
use crate::machine::COMMIT;
use crate::state::{State, USERS};
use crate::value::Value;

impl<C: Calls> List<'_, C> {
    /// A call that may be refused. Where this implementation says that it would be accepted,
    /// it isn't made.
    pub(super) fn refused_call(&mut self) -> Outcome {
        match self.random.below(3) {
            0 => self.refused_instant(),
            _ => self.refused_choice(),
        }
    }

    /// Bytes that name no item, users above 3, items that aren't enabled, commits too early or of
    /// nothing, users whose allowance is used up.
    fn refused_choice(&mut self) -> Outcome {
        let items = self.machine.items() as u8;
        let choice = match self.random.below(4) {
            0 => COMMIT,
            1 => self.random.pick(&[items, 254]),
            _ => self.random.below(items.into()) as u8,
        };
        let user = match self.random.below(8) {
            0 => self.random.pick(&[USERS as u8, u8::MAX]),
            _ => self.random.below(USERS) as u8,
        };
        let by_run = self.random.chance(1, 3);
        let expected = match by_run {
            true => self.reference.run(&mut self.state.clone(), user, &[choice]).1,
            false => self.reference.choose(&mut self.state.clone(), user, choice),
        };
        if expected == 0 {
            return Ok(());
        }
        self.last = format!("refused choice {choice} of user {user}");
        let mut state = self.state.clone();
        let number = match by_run {
            true => match self.calls.run(&mut state, user, &[choice, 0]) {
                (0, number) => number,
                (accepted, _) => return Err(format!("{accepted} accepted")),
            },
            false => self.calls.choose(&mut state, user, choice),
        };
        self.unchanged(expected, number, state)
    }

    /// When not quiet, or with bad inputs.
    fn refused_instant(&mut self) -> Outcome {
        let module = self.machine.module();
        let mut inputs = match self.random.chance(1, 2) {
            true => lanes::inputs(module, self.random),
            false => lanes::bad_inputs(module, self.random),
        };
        inputs.truncate(254);
        inputs.insert(0, self.random.pick(&[Value::known(0), Value::known(1), Value::x(1)]));
        let expected = self.reference.instant(&mut self.state.clone(), &inputs);
        if expected == 0 {
            return Ok(());
        }
        self.last = format!("refused instant {inputs:?}");
        let mut state = self.state.clone();
        let number = self.calls.instant(&mut state, &inputs);
        self.unchanged(expected, number, state)
    }

    fn unchanged(&mut self, expected: u8, number: u8, state: State) -> Outcome {
        self.counts.calls += 1;
        self.counts.refused[usize::from(number)] += 1;
        if number != expected {
            return Err(format!("{number}, not {expected}"));
        }
        if state != self.state {
            return Err("a refused call changed the state".into());
        }
        self.holds()
    }
}
