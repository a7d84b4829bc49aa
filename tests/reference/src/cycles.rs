//! Many clock cycles in one call, by events.

use crate::simulator::{Simulator, Verdict, number_of};
use crate::state::State;
use crate::value::Value;

/// What a run over rows of inputs gives beside the state reached.
#[derive(Clone, Copy, Debug, PartialEq, Eq)]
pub struct CyclesRun {
    /// The rows done whole.
    pub rows: usize,
    /// The last step taken or refused.
    pub at: Step,
    /// The number that it was refused with, 0 if it wasn't.
    pub number: u8,
    /// What the last plain run said. One that is spent is no refusal; an instant after
    /// it gives 32.
    pub verdict: Verdict,
}

#[derive(Clone, Copy, Debug, PartialEq, Eq)]
pub enum Step {
    /// The plain run on the state as handed over.
    First,
    /// The row's instant with this clock.
    Instant { row: usize, clock: u32 },
    /// The plain run after it.
    Rest { row: usize, clock: u32 },
}

impl Simulator<'_> {
    /// Runs to rest, then for each row of inputs, from input 1 up, an instant with the
    /// clock 0 and one with the clock 1, each followed by a plain run of at most 65,535
    /// choices of the user. Ends at the first refusal.
    pub fn run_cycles(&self, state: &mut State, user: u8, rows: &[Vec<Value>]) -> CyclesRun {
        let mut run =
            CyclesRun { rows: 0, at: Step::First, number: 0, verdict: Verdict::Refused };
        run.number = number_of(self.take_rows(state, user, rows, &mut run));
        run
    }

    fn take_rows(
        &self,
        state: &mut State,
        user: u8,
        rows: &[Vec<Value>],
        run: &mut CyclesRun,
    ) -> Result<(), u8> {
        self.rest(state, user, run)?;
        for (row, inputs) in rows.iter().enumerate() {
            for clock in [0, 1] {
                run.at = Step::Instant { row, clock };
                self.instant(state, &[&[Value::known(clock)], &inputs[..]].concat())?;
                run.at = Step::Rest { row, clock };
                self.rest(state, user, run)?;
            }
            run.rows += 1;
        }
        Ok(())
    }

    fn rest(&self, state: &mut State, user: u8, run: &mut CyclesRun) -> Result<(), u8> {
        let plain = self.run_plain(state, user, u16::MAX);
        run.verdict = plain.verdict;
        if plain.number == 0 { Ok(()) } else { Err(plain.number) }
    }
}
