//! Clock cycles by expressions that were prepared once.

use std::fmt;

use crate::expressions::{Cycles, Registers, Tables, Wires};
use crate::inputs::{Inputs, Rows};
use crate::plan::PLAN_WORDS;
use crate::raw;
use crate::refusal::{Reason, Refusal};
use crate::sheet::Sheet;
use crate::trace::Trace;

/// The words of the rows of the waits, and the bytes of the rows' numbers by place.
const ROW_WORDS: usize = 1_152;
const NUMBERS: usize = 2_048;

/// A sheet and its expressions, prepared once for the cycle run: [`Sheet::cycle`] and
/// [`Sheet::cycles`] judge and prepare both each time; here a call only runs. Each call gives what
/// the call of the same name on the sheet gives.
///
/// ```
/// # let bytes = [2, 1, 0, 1, 1, 8, 8, 0x0C, 0x10, 1, 1, 0, 0x23, 2, 2, 1];
/// use walbryts::{Inputs, Registers, Rows, Sheet, Value};
/// let sheet = Sheet::read(&bytes)?;
/// let plan = sheet.prepare_tables(&sheet.extract()?)?;
/// let mut registers = Registers::start(&sheet);
/// plan.cycle(&mut registers, &Inputs::from([5]))?;
/// assert_eq!(registers.value(0), Value::known(5));
///
/// let mut rows = Rows::new(&sheet);
/// rows.push([6])?;
/// let (cycles, trace) = plan.trace(&mut registers, &rows)?;
/// assert_eq!((cycles.accepted, trace.len()), (1, 2));
/// let register = |row| trace.value(row, sheet.register(0));
/// assert_eq!([0, 1].map(register), [5, 6].map(Value::known));
/// # Ok::<(), walbryts::Refusal>(())
/// ```
#[derive(Clone, PartialEq, Eq)]
pub struct ClockPlan {
    sheet: Sheet,
    plan: Box<[u32]>,
    lent: Box<[u32]>,
    table: Box<[u32]>,
    numbers: Box<[u8]>,
}

impl Sheet {
    /// Prepares the sheet and its expressions for many clock cycles.
    ///
    /// # Errors
    ///
    /// 23, 12 to 21, 24.
    pub fn prepare_tables(&self, tables: &Tables) -> Result<ClockPlan, Refusal> {
        let (sheet, len) = self.raw();
        let (nodes, rows) = (tables.nodes(), tables.rows());
        let words = |n| vec![0; n].into_boxed_slice();
        let (mut plan, mut lent) = (words(PLAN_WORDS), words(PLAN_WORDS));
        let (mut table, mut numbers) = (words(ROW_WORDS), vec![0; NUMBERS].into_boxed_slice());
        // Safety: pointers and lengths are those of one slice each, and the tables have their
        // lengths.
        let number = unsafe {
            raw::walbryts_clock_prepare(
                sheet,
                len,
                nodes.as_ptr(),
                nodes.len(),
                rows.as_ptr(),
                rows.len(),
                plan.as_mut_ptr(),
                lent.as_mut_ptr(),
                table.as_mut_ptr(),
                numbers.as_mut_ptr(),
            )
        };
        Refusal::judge(number)?;
        Ok(ClockPlan { sheet: self.clone(), plan, lent, table, numbers })
    }
}

impl ClockPlan {
    /// The sheet that was prepared.
    #[must_use]
    pub fn sheet(&self) -> &Sheet {
        &self.sheet
    }

    /// As [`Sheet::cycle`].
    ///
    /// # Errors
    ///
    /// 31, 25. The registers stay.
    pub fn cycle(&self, registers: &mut Registers, inputs: &Inputs) -> Result<Wires, Refusal> {
        let mut wires = Wires::unknown();
        // Safety: each table and each array has its length.
        let number = unsafe {
            raw::walbryts_clock_cycle(
                self.plan.as_ptr(),
                self.lent.as_ptr(),
                self.table.as_ptr(),
                self.numbers.as_ptr(),
                registers.value.as_mut_ptr(),
                registers.unknown.as_mut_ptr(),
                registers.places.as_mut_ptr(),
                inputs.count,
                inputs.value.as_ptr(),
                inputs.unknown.as_ptr(),
                wires.value.as_mut_ptr(),
                wires.unknown.as_mut_ptr(),
            )
        };
        Refusal::judge(number).map(|()| wires)
    }

    /// As [`Sheet::cycles`].
    ///
    /// # Errors
    ///
    /// 31. The registers stay.
    pub fn cycles(&self, registers: &mut Registers, rows: &Rows) -> Result<Cycles, Refusal> {
        let (value, unknown) = rows.lent(&self.sheet);
        let mut wires = Wires::unknown();
        let mut accepted = 0;
        // Safety: as in `cycle`, with pointer and length of two slices; the number is a local's.
        let number = unsafe {
            raw::walbryts_clock_cycles(
                self.plan.as_ptr(),
                self.lent.as_ptr(),
                self.table.as_ptr(),
                self.numbers.as_ptr(),
                registers.value.as_mut_ptr(),
                registers.unknown.as_mut_ptr(),
                registers.places.as_mut_ptr(),
                value.as_ptr(),
                value.len(),
                unknown.as_ptr(),
                unknown.len(),
                &mut accepted,
                wires.value.as_mut_ptr(),
                wires.unknown.as_mut_ptr(),
            )
        };
        self.ended(rows, number, Cycles { accepted, stopped: None, wires })
    }

    /// The cycles of [`ClockPlan::cycles`], and two rows of a trace for each that was accepted: row
    /// 2n once the wires have settled on cycle n's inputs, with the clock low and the registers
    /// before it, and row 2n + 1 what the cycle gives, with the clock high.
    ///
    /// # Errors
    ///
    /// 31. The registers stay.
    pub fn trace(
        &self,
        registers: &mut Registers,
        rows: &Rows,
    ) -> Result<(Cycles, Trace), Refusal> {
        let (value, unknown) = rows.lent(&self.sheet);
        let mut words = Trace::lent(rows.len());
        let mut accepted = 0;
        // Safety: as in `cycles`, with pointer and length of one more slice.
        let number = unsafe {
            raw::walbryts_clock_trace(
                self.plan.as_ptr(),
                self.lent.as_ptr(),
                self.table.as_ptr(),
                self.numbers.as_ptr(),
                registers.value.as_mut_ptr(),
                registers.unknown.as_mut_ptr(),
                registers.places.as_mut_ptr(),
                value.as_ptr(),
                value.len(),
                unknown.as_ptr(),
                unknown.len(),
                words.as_mut_ptr(),
                words.len(),
                &mut accepted,
            )
        };
        let trace = Trace::of(words, 2 * accepted);
        let wires = self.last_wires(&trace);
        let cycles = self.ended(rows, number, Cycles { accepted, stopped: None, wires })?;
        Ok((cycles, trace))
    }

    /// The wires of a trace's last row.
    fn last_wires(&self, trace: &Trace) -> Wires {
        let mut wires = Wires::unknown();
        if let Some(row) = trace.len().checked_sub(1) {
            for wire in 0..self.sheet.wires() {
                let value = trace.value(row, self.sheet.wire(wire));
                (wires.value[wire], wires.unknown[wire]) = (value.number, value.unknown);
            }
        }
        wires
    }

    /// 25 at a row is a stop; what else refuses is a refused call.
    fn ended(&self, rows: &Rows, number: u8, cycles: Cycles) -> Result<Cycles, Refusal> {
        match rows.stop(&self.sheet, number) {
            Some(refusal) if refusal.reason() != Reason::Inputs => Err(refusal),
            stopped => Ok(Cycles { stopped, ..cycles }),
        }
    }
}

impl fmt::Debug for ClockPlan {
    fn fmt(&self, f: &mut fmt::Formatter) -> fmt::Result {
        f.debug_struct("ClockPlan").field("sheet", &self.sheet).finish_non_exhaustive()
    }
}
