//! The calls on what was prepared once, through the C interface.

use super::{Inputs, Planes, SAVED};
use crate::state::USERS;

/// The words of a plan, of the rows and of the rows' numbers by place.
pub const PLAN_WORDS: usize = 25_212;
pub const CLOCK_WORDS: usize = 1_152;
pub const CLOCK_BYTES: usize = 2_048;
/// The words of a row of a trace.
pub const TRACE_ROW: usize = 88;

unsafe extern "C" {
    fn walbryts_prepare(sheet: *const u8, len: usize, plan: *mut u32, place: *mut usize) -> u8;
    fn walbryts_plan_start(plan: *const u32, allowances: *const u32, state: *mut u8);
    fn walbryts_plan_choose(plan: *const u32, state: *mut u8, user: u8, choice: u8) -> u8;
    fn walbryts_plan_run(
        plan: *const u32,
        state: *mut u8,
        user: u8,
        choices: *const u8,
        choices_len: usize,
        accepted: *mut usize,
    ) -> u8;
    fn walbryts_plan_run_plain(
        plan: *const u32,
        state: *mut u8,
        user: u8,
        limit: u16,
        accepted: *mut u16,
        word: *mut u8,
    ) -> u8;
    fn walbryts_plan_instant(
        plan: *const u32,
        state: *mut u8,
        count: u8,
        value: *const u32,
        unknown: *const u32,
    ) -> u8;
    fn walbryts_plan_run_cycles(
        plan: *const u32,
        state: *mut u8,
        user: u8,
        value: *const u32,
        values: usize,
        unknown: *const u32,
        unknowns: usize,
        phases: *mut usize,
        running: *mut bool,
    ) -> u8;
    fn walbryts_plan_trace(
        plan: *const u32,
        state: *mut u8,
        user: u8,
        value: *const u32,
        values: usize,
        unknown: *const u32,
        unknowns: usize,
        trace: *mut u64,
        words: usize,
        phases: *mut usize,
        running: *mut bool,
    ) -> u8;
    fn walbryts_clock_prepare(
        sheet: *const u8,
        sheet_len: usize,
        nodes: *const u16,
        nodes_len: usize,
        rows: *const u16,
        rows_len: usize,
        plan: *mut u32,
        lent: *mut u32,
        table: *mut u32,
        numbers: *mut u8,
    ) -> u8;
    fn walbryts_clock_cycle(
        plan: *const u32,
        lent: *const u32,
        table: *const u32,
        numbers: *const u8,
        value: *mut u32,
        unknown: *mut u32,
        places: *mut u8,
        count: u8,
        inputs: *const u32,
        inputs_unknown: *const u32,
        wire: *mut u32,
        unsure: *mut u32,
    ) -> u8;
    fn walbryts_clock_cycles(
        plan: *const u32,
        lent: *const u32,
        table: *const u32,
        numbers: *const u8,
        value: *mut u32,
        unknown: *mut u32,
        places: *mut u8,
        inputs: *const u32,
        inputs_len: usize,
        inputs_unknown: *const u32,
        unknowns: usize,
        cycles: *mut usize,
        wire: *mut u32,
        unsure: *mut u32,
    ) -> u8;
    fn walbryts_clock_trace(
        plan: *const u32,
        lent: *const u32,
        table: *const u32,
        numbers: *const u8,
        value: *mut u32,
        unknown: *mut u32,
        places: *mut u8,
        inputs: *const u32,
        inputs_len: usize,
        inputs_unknown: *const u32,
        unknowns: usize,
        trace: *mut u64,
        words: usize,
        cycles: *mut usize,
    ) -> u8;
}

/// A plan of the event simulator, of any words.
#[derive(Clone, PartialEq, Eq)]
pub struct Plan {
    pub words: Vec<u32>,
}

/// The numbers and marks of rows of 16 inputs.
pub type Rows = (Vec<u32>, Vec<u32>);

impl Plan {
    /// Prepares over what the plan holds; the number and the place.
    pub fn prepare(&mut self, sheet: &[u8]) -> (u8, usize) {
        assert_eq!(self.words.len(), PLAN_WORDS);
        let mut place = usize::MAX;
        let (at, len, plan) = (sheet.as_ptr(), sheet.len(), self.words.as_mut_ptr());
        // Safety: pointer and length are those of one slice, the plan has its length, the place is
        // a local's.
        let number = unsafe { walbryts_prepare(at, len, plan, &mut place) };
        (number, place)
    }

    pub fn start(&self, allowances: [u32; USERS], state: &mut [u8; SAVED]) {
        let (plan, state) = (self.words.as_ptr(), state.as_mut_ptr());
        // Safety: plan, allowances and state have their lengths.
        unsafe { walbryts_plan_start(plan, allowances.as_ptr(), state) };
    }

    pub fn choose(&self, state: &mut [u8; SAVED], user: u8, choice: u8) -> u8 {
        let (plan, state) = (self.words.as_ptr(), state.as_mut_ptr());
        // Safety: as above.
        unsafe { walbryts_plan_choose(plan, state, user, choice) }
    }

    pub fn run(&self, state: &mut [u8; SAVED], user: u8, choices: &[u8]) -> (usize, u8) {
        let mut accepted = usize::MAX;
        let (plan, state) = (self.words.as_ptr(), state.as_mut_ptr());
        let (list, count) = (choices.as_ptr(), choices.len());
        // Safety: as above, with pointer and length of a slice.
        let number =
            unsafe { walbryts_plan_run(plan, state, user, list, count, &mut accepted) };
        (accepted, number)
    }

    pub fn run_plain(&self, state: &mut [u8; SAVED], user: u8, limit: u16) -> (u16, u8, u8) {
        let (mut accepted, mut word) = (u16::MAX, u8::MAX);
        let (plan, state) = (self.words.as_ptr(), state.as_mut_ptr());
        // Safety: as above; count and word are locals'.
        let number = unsafe {
            walbryts_plan_run_plain(plan, state, user, limit, &mut accepted, &mut word)
        };
        (accepted, number, word)
    }

    pub fn instant(&self, state: &mut [u8; SAVED], inputs: &Inputs) -> u8 {
        let Inputs { count, value, unknown } = inputs;
        let (plan, state) = (self.words.as_ptr(), state.as_mut_ptr());
        // Safety: as above, and there are 16 numbers and marks.
        unsafe { walbryts_plan_instant(plan, state, *count, value.as_ptr(), unknown.as_ptr()) }
    }

    pub fn run_cycles(
        &self,
        state: &mut [u8; SAVED],
        user: u8,
        (value, unknown): &Rows,
    ) -> (usize, bool, u8) {
        let (mut phases, mut running) = (usize::MAX, true);
        // Safety: as above, with the pointer and the length of each slice.
        let number = unsafe {
            walbryts_plan_run_cycles(
                self.words.as_ptr(),
                state.as_mut_ptr(),
                user,
                value.as_ptr(),
                value.len(),
                unknown.as_ptr(),
                unknown.len(),
                &mut phases,
                &mut running,
            )
        };
        (phases, running, number)
    }

    pub fn trace(
        &self,
        state: &mut [u8; SAVED],
        user: u8,
        (value, unknown): &Rows,
        trace: &mut [u64],
    ) -> (usize, bool, u8) {
        let (mut phases, mut running) = (usize::MAX, true);
        // Safety: as above.
        let number = unsafe {
            walbryts_plan_trace(
                self.words.as_ptr(),
                state.as_mut_ptr(),
                user,
                value.as_ptr(),
                value.len(),
                unknown.as_ptr(),
                unknown.len(),
                trace.as_mut_ptr(),
                trace.len(),
                &mut phases,
                &mut running,
            )
        };
        (phases, running, number)
    }
}

/// The four tables of the cycle run, of any contents.
#[derive(Clone, PartialEq, Eq)]
pub struct ClockPlan {
    pub plan: Vec<u32>,
    pub lent: Vec<u32>,
    pub table: Vec<u32>,
    pub numbers: Vec<u8>,
}

impl ClockPlan {
    /// Prepares over what the tables hold; the number.
    pub fn prepare(&mut self, sheet: &[u8], nodes: &[u16], rows: &[u16]) -> u8 {
        assert_eq!((self.plan.len(), self.lent.len()), (PLAN_WORDS, PLAN_WORDS));
        assert_eq!((self.table.len(), self.numbers.len()), (CLOCK_WORDS, CLOCK_BYTES));
        // Safety: as above, and each table has its length.
        unsafe {
            walbryts_clock_prepare(
                sheet.as_ptr(),
                sheet.len(),
                nodes.as_ptr(),
                nodes.len(),
                rows.as_ptr(),
                rows.len(),
                self.plan.as_mut_ptr(),
                self.lent.as_mut_ptr(),
                self.table.as_mut_ptr(),
                self.numbers.as_mut_ptr(),
            )
        }
    }

    pub fn cycle(&self, planes: &mut Planes, inputs: &Inputs) -> u8 {
        // Safety: as above, and each plane has its length.
        unsafe {
            walbryts_clock_cycle(
                self.plan.as_ptr(),
                self.lent.as_ptr(),
                self.table.as_ptr(),
                self.numbers.as_ptr(),
                planes.value.as_mut_ptr(),
                planes.unknown.as_mut_ptr(),
                planes.places.as_mut_ptr(),
                inputs.count,
                inputs.value.as_ptr(),
                inputs.unknown.as_ptr(),
                planes.wire.as_mut_ptr(),
                planes.unsure.as_mut_ptr(),
            )
        }
    }

    pub fn cycles(&self, planes: &mut Planes, (value, unknown): &Rows) -> (usize, u8) {
        let mut cycles = usize::MAX;
        // Safety: as above, with the pointer and the length of each slice.
        let number = unsafe {
            walbryts_clock_cycles(
                self.plan.as_ptr(),
                self.lent.as_ptr(),
                self.table.as_ptr(),
                self.numbers.as_ptr(),
                planes.value.as_mut_ptr(),
                planes.unknown.as_mut_ptr(),
                planes.places.as_mut_ptr(),
                value.as_ptr(),
                value.len(),
                unknown.as_ptr(),
                unknown.len(),
                &mut cycles,
                planes.wire.as_mut_ptr(),
                planes.unsure.as_mut_ptr(),
            )
        };
        (cycles, number)
    }

    pub fn trace(
        &self,
        planes: &mut Planes,
        (value, unknown): &Rows,
        trace: &mut [u64],
    ) -> (usize, u8) {
        let mut cycles = usize::MAX;
        // Safety: as above.
        let number = unsafe {
            walbryts_clock_trace(
                self.plan.as_ptr(),
                self.lent.as_ptr(),
                self.table.as_ptr(),
                self.numbers.as_ptr(),
                planes.value.as_mut_ptr(),
                planes.unknown.as_mut_ptr(),
                planes.places.as_mut_ptr(),
                value.as_ptr(),
                value.len(),
                unknown.as_ptr(),
                unknown.len(),
                trace.as_mut_ptr(),
                trace.len(),
                &mut cycles,
            )
        };
        (cycles, number)
    }
}
