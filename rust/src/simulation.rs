//! The event simulator's calls.

use crate::inputs::{Inputs, Rows};
use crate::raw;
use crate::refusal::{Reason, Refusal};
use crate::sheet::Sheet;
use crate::state::{SAVED, State, USERS};

/// The choice that commits all pending values.
pub const COMMIT: u8 = 255;

/// What a run over a list of choices came to.
#[derive(Clone, Copy, Debug, PartialEq, Eq)]
pub struct Run {
    /// How many choices were accepted.
    pub accepted: usize,
    /// What refused the next one; none where all were accepted.
    pub stopped: Option<Refusal>,
}

/// What a plain run came to.
#[derive(Clone, Copy, Debug, PartialEq, Eq)]
pub struct PlainRun {
    /// How many choices were accepted.
    pub accepted: u16,
    /// How it ended.
    pub verdict: Verdict,
}

/// How a plain run ended.
#[derive(Clone, Copy, Debug, PartialEq, Eq)]
pub enum Verdict {
    /// The state is quiet: nothing enabled, nothing pending.
    Quiet,
    /// As many choices ran as were allowed, and it isn't quiet.
    Spent,
    /// The user's allowance is used up (47).
    Full,
}

/// What clock cycles by events came to.
#[derive(Clone, Copy, Debug, PartialEq, Eq)]
pub struct CycleRuns {
    /// How many instants were done, with the plain run after each: two a row.
    pub phases: usize,
    /// What refused the next instant or stopped the run after it; none where all rows ran.
    pub stopped: Option<Refusal>,
    /// Whether it was the run after an instant that was stopped, and not the instant refused.
    pub running: bool,
}

impl Sheet {
    /// The start state: all is x in all bits, places and counters 0, every wire due; the allowances
    /// say how many choices each user may take, for good. It is quiet, as an instant needs it, after a
    /// plain run.
    #[must_use]
    pub fn start(&self, allowances: [u32; USERS]) -> State {
        let (sheet, len) = self.raw();
        let mut bytes = [0; SAVED];
        // Safety: pointer and length are those of one slice, the state and the allowances have
        // their length.
        unsafe { raw::walbryts_start(sheet, len, allowances.as_ptr(), bytes.as_mut_ptr()) };
        State { bytes }
    }

    /// Runs one instruction of a thread, or one due wire, or the commit ([`COMMIT`]): threads,
    /// then wires, are numbered from 0. The choice is counted for the user, 0 to 3, alone.
    ///
    /// # Errors
    ///
    /// 31, 22, 46, 33, 34, 35, 47. The state stays.
    pub fn choose(&self, state: &mut State, user: u8, choice: u8) -> Result<(), Refusal> {
        let (sheet, len) = self.raw();
        // Safety: as in `start`.
        let number =
            unsafe { raw::walbryts_choose(sheet, len, state.bytes.as_mut_ptr(), user, choice) };
        Refusal::judge(number)
    }

    /// Runs a list of choices, up to the first that is refused.
    ///
    /// # Errors
    ///
    /// 31. The state stays.
    pub fn run(&self, state: &mut State, user: u8, choices: &[u8]) -> Result<Run, Refusal> {
        let (sheet, len) = self.raw();
        let mut accepted = 0;
        // Safety: as in `start`, with pointer and length of one more slice; the number is a
        // local's.
        let number = unsafe {
            raw::walbryts_run(
                sheet,
                len,
                state.bytes.as_mut_ptr(),
                user,
                choices.as_ptr(),
                choices.len(),
                &mut accepted,
            )
        };
        Ok(Run { accepted, stopped: unless_refused(Refusal::stop(number))? })
    }

    /// The plain run of at most so many choices of a user: always the lowest enabled item, else the
    /// commit.
    ///
    /// # Errors
    ///
    /// 31, 46. The state stays.
    pub fn run_plain(
        &self,
        state: &mut State,
        user: u8,
        limit: u16,
    ) -> Result<PlainRun, Refusal> {
        let (sheet, len) = self.raw();
        let (mut accepted, mut word) = (0, 0);
        // Safety: as in `start`; number and word are locals'.
        let number = unsafe {
            raw::walbryts_run_plain(
                sheet,
                len,
                state.bytes.as_mut_ptr(),
                user,
                limit,
                &mut accepted,
                &mut word,
            )
        };
        plain_run(accepted, word, number)
    }

    /// An instant: sets all inputs, the clock first, as one change.
    ///
    /// # Errors
    ///
    /// 31, 25, 32, 36. The state stays.
    pub fn instant(&self, state: &mut State, inputs: &Inputs) -> Result<(), Refusal> {
        let (sheet, len) = self.raw();
        // Safety: as in `start`; there are 16 numbers and marks.
        let number = unsafe {
            raw::walbryts_instant(
                sheet,
                len,
                state.bytes.as_mut_ptr(),
                inputs.count,
                inputs.value.as_ptr(),
                inputs.unknown.as_ptr(),
            )
        };
        Refusal::judge(number)
    }

    /// Clock cycles by events. For each row two instants, the clock low with the row's inputs
    /// and the clock high with nothing else changed, with a plain run of at most 65,535 choices of
    /// the user after each; up to the first that is refused or stopped. The state must be quiet at first. It
    /// gives what the single calls give, and is much faster.
    ///
    /// # Errors
    ///
    /// 31, 46. The state stays.
    pub fn run_cycles(
        &self,
        state: &mut State,
        user: u8,
        rows: &Rows,
    ) -> Result<CycleRuns, Refusal> {
        let (sheet, len) = self.raw();
        let (value, unknown) = rows.lent(self);
        let (mut phases, mut running) = (0, false);
        // Safety: as in `start`, with pointer and length of two more slices; number and flag are
        // locals'.
        let number = unsafe {
            raw::walbryts_run_cycles(
                sheet,
                len,
                state.bytes.as_mut_ptr(),
                user,
                value.as_ptr(),
                value.len(),
                unknown.as_ptr(),
                unknown.len(),
                &mut phases,
                &mut running,
            )
        };
        Ok(CycleRuns { phases, stopped: unless_refused(rows.stop(self, number))?, running })
    }
}

/// What a plain run came to, by its word; a refused one by its number.
pub(crate) fn plain_run(accepted: u16, word: u8, number: u8) -> Result<PlainRun, Refusal> {
    let verdict = match word {
        0 => Verdict::Quiet,
        1 => Verdict::Spent,
        2 => Verdict::Full,
        _ => return Err(Refusal::of(number)),
    };
    Ok(PlainRun { accepted, verdict })
}

/// A state that doesn't fit, or a user that there isn't, is a refused call, and no stop.
pub(crate) fn unless_refused(stop: Option<Refusal>) -> Result<Option<Refusal>, Refusal> {
    match stop {
        Some(refusal) if matches!(refusal.reason(), Reason::Unfit | Reason::NoUser) => {
            Err(refusal)
        }
        _ => Ok(stop),
    }
}
