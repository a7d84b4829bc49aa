//! The event simulator's calls on a sheet that was prepared once.

use std::fmt;

use crate::inputs::{Inputs, Rows};
use crate::raw;
use crate::refusal::Refusal;
use crate::sheet::Sheet;
use crate::simulation::{CycleRuns, PlainRun, Run, plain_run, unless_refused};
use crate::state::{SAVED, State, USERS};
use crate::trace::Trace;

/// The words of a plan.
pub(crate) const PLAN_WORDS: usize = 25_212;

/// A sheet that was prepared once for the event simulator: all that is worked out from the sheet
/// before a call can run. A call on a [`Sheet`] prepares it each time; on a plan it only runs. Each
/// call here gives what the call of the same name on the sheet gives.
///
/// ```
/// # let bytes = [2, 1, 0, 1, 1, 8, 8, 0x0C, 0x10, 1, 1, 0, 0x23, 2, 2, 1];
/// use walbryts::{Inputs, Sheet, USERS, Value};
/// let sheet = Sheet::read(&bytes)?;
/// let plan = sheet.prepare();
/// let mut state = plan.start([u32::MAX; USERS]);
/// plan.run_plain(&mut state, 0, 1000)?;
/// for clock in [0, 1] {
///     plan.instant(&mut state, &Inputs::from([clock, 5]))?;
///     plan.run_plain(&mut state, 0, 1000)?;
/// }
/// assert_eq!(state.value(sheet.register(0)), Value::known(5));
/// # Ok::<(), walbryts::Refusal>(())
/// ```
#[derive(Clone, PartialEq, Eq)]
pub struct Plan {
    sheet: Sheet,
    words: Box<[u32]>,
}

impl Sheet {
    /// Prepares the sheet for many calls of the event simulator.
    #[must_use]
    pub fn prepare(&self) -> Plan {
        let (sheet, len) = self.raw();
        let mut words = vec![0; PLAN_WORDS].into_boxed_slice();
        let mut place = 0;
        // Safety: pointer and length are those of one slice, the plan has its length, the place is
        // a local's.
        unsafe { raw::walbryts_prepare(sheet, len, words.as_mut_ptr(), &mut place) };
        Plan { sheet: self.clone(), words }
    }
}

impl Plan {
    /// The sheet that was prepared.
    #[must_use]
    pub fn sheet(&self) -> &Sheet {
        &self.sheet
    }

    /// As [`Sheet::start`].
    #[must_use]
    pub fn start(&self, allowances: [u32; USERS]) -> State {
        let mut bytes = [0; SAVED];
        let (allowed, state) = (allowances.as_ptr(), bytes.as_mut_ptr());
        // Safety: the plan, the state and the allowances have their length.
        unsafe { raw::walbryts_plan_start(self.words.as_ptr(), allowed, state) };
        State { bytes }
    }

    /// As [`Sheet::choose`].
    ///
    /// # Errors
    ///
    /// 31, 22, 46, 33, 34, 35, 47. The state stays.
    pub fn choose(&self, state: &mut State, user: u8, choice: u8) -> Result<(), Refusal> {
        let (plan, state) = (self.words.as_ptr(), state.bytes.as_mut_ptr());
        // Safety: as in `start`.
        Refusal::judge(unsafe { raw::walbryts_plan_choose(plan, state, user, choice) })
    }

    /// As [`Sheet::run`].
    ///
    /// # Errors
    ///
    /// 31, 46. The state stays.
    pub fn run(&self, state: &mut State, user: u8, choices: &[u8]) -> Result<Run, Refusal> {
        let (plan, state) = (self.words.as_ptr(), state.bytes.as_mut_ptr());
        let (list, count) = (choices.as_ptr(), choices.len());
        let mut accepted = 0;
        // Safety: as in `start`, with pointer and length of a slice; the number is a local's.
        let number =
            unsafe { raw::walbryts_plan_run(plan, state, user, list, count, &mut accepted) };
        Ok(Run { accepted, stopped: unless_refused(Refusal::stop(number))? })
    }

    /// As [`Sheet::run_plain`].
    ///
    /// # Errors
    ///
    /// 31, 46. The state stays.
    pub fn run_plain(
        &self,
        state: &mut State,
        user: u8,
        limit: u16,
    ) -> Result<PlainRun, Refusal> {
        let (plan, state) = (self.words.as_ptr(), state.bytes.as_mut_ptr());
        let (mut accepted, mut word) = (0, 0);
        // Safety: as in `start`; number and word are locals'.
        let number = unsafe {
            raw::walbryts_plan_run_plain(plan, state, user, limit, &mut accepted, &mut word)
        };
        plain_run(accepted, word, number)
    }

    /// As [`Sheet::instant`].
    ///
    /// # Errors
    ///
    /// 31, 25, 32, 36. The state stays.
    pub fn instant(&self, state: &mut State, inputs: &Inputs) -> Result<(), Refusal> {
        let (plan, state) = (self.words.as_ptr(), state.bytes.as_mut_ptr());
        let (value, unknown) = (inputs.value.as_ptr(), inputs.unknown.as_ptr());
        // Safety: as in `start`; there are 16 numbers and marks.
        let number =
            unsafe { raw::walbryts_plan_instant(plan, state, inputs.count, value, unknown) };
        Refusal::judge(number)
    }

    /// As [`Sheet::run_cycles`].
    ///
    /// # Errors
    ///
    /// 31, 46. The state stays.
    pub fn run_cycles(
        &self,
        state: &mut State,
        user: u8,
        rows: &Rows,
    ) -> Result<CycleRuns, Refusal> {
        let (value, unknown) = rows.lent(&self.sheet);
        let (mut phases, mut running) = (0, false);
        // Safety: as in `start`, with pointer and length of two slices; number and flag are
        // locals'.
        let number = unsafe {
            raw::walbryts_plan_run_cycles(
                self.words.as_ptr(),
                state.bytes.as_mut_ptr(),
                user,
                value.as_ptr(),
                value.len(),
                unknown.as_ptr(),
                unknown.len(),
                &mut phases,
                &mut running,
            )
        };
        let stopped = unless_refused(rows.stop(&self.sheet, number))?;
        Ok(CycleRuns { phases, stopped, running })
    }

    /// The cycles of [`Plan::run_cycles`], and what each instant left: row 2n of the trace with the
    /// clock low in cycle n, row 2n + 1 with the clock high, up to the first that was stopped.
    ///
    /// ```
    /// # let bytes = [2, 1, 0, 1, 1, 8, 8, 0x0C, 0x10, 1, 1, 0, 0x23, 2, 2, 1];
    /// use walbryts::{Rows, Sheet, USERS, Value};
    /// let sheet = Sheet::read(&bytes)?;
    /// let plan = sheet.prepare();
    /// let mut state = plan.start([u32::MAX; USERS]);
    /// plan.run_plain(&mut state, 0, 1000)?;
    /// let mut rows = Rows::new(&sheet);
    /// for number in [5, 6, 7] {
    ///     rows.push([number])?;
    /// }
    /// let (runs, trace) = plan.trace(&mut state, 0, &rows)?;
    /// assert_eq!((runs.phases, trace.len()), (6, 6));
    /// let register = |row| trace.value(row, sheet.register(0));
    /// assert_eq!([1, 2, 3, 5].map(register), [5, 5, 6, 7].map(Value::known));
    /// # Ok::<(), walbryts::Refusal>(())
    /// ```
    ///
    /// # Errors
    ///
    /// 31, 46. The state stays.
    pub fn trace(
        &self,
        state: &mut State,
        user: u8,
        rows: &Rows,
    ) -> Result<(CycleRuns, Trace), Refusal> {
        let (value, unknown) = rows.lent(&self.sheet);
        let mut words = Trace::lent(rows.len());
        let (mut phases, mut running) = (0, false);
        // Safety: as in `run_cycles`, with pointer and length of one more slice.
        let number = unsafe {
            raw::walbryts_plan_trace(
                self.words.as_ptr(),
                state.bytes.as_mut_ptr(),
                user,
                value.as_ptr(),
                value.len(),
                unknown.as_ptr(),
                unknown.len(),
                words.as_mut_ptr(),
                words.len(),
                &mut phases,
                &mut running,
            )
        };
        let stopped = unless_refused(rows.stop(&self.sheet, number))?;
        Ok((CycleRuns { phases, stopped, running }, Trace::of(words, phases)))
    }
}

impl fmt::Debug for Plan {
    fn fmt(&self, f: &mut fmt::Formatter) -> fmt::Result {
        f.debug_struct("Plan").field("sheet", &self.sheet).finish_non_exhaustive()
    }
}
