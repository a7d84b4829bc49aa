//! Extraction and clock cycles by the extracted expressions.

use crate::inputs::{Inputs, Rows};
use crate::raw;
use crate::refusal::{Reason, Refusal};
use crate::sheet::Sheet;
use crate::state::State;
use crate::value::Value;

/// The words of the node table: 4,096 nodes of four words.
pub const NODE_WORDS: usize = 16_384;
/// The words of the row table: 32 rows, one for each wait, of 33 words.
pub const ROW_WORDS: usize = 1_056;

const REGISTERS: usize = 32;
const PLACES: usize = 8;
const WIRES: usize = 32;

/// The expressions of what every register becomes at a clock edge: nodes and rows.
///
/// A node is four words: kind (0 variable, 1 constant, 2 unknown constant, 10 plus the operator,
/// 40 branch) and operands. A row, by thread and wait, is 32 register nodes and the node of the
/// next place.
#[derive(Clone, Debug, PartialEq, Eq, Hash)]
pub struct Tables {
    nodes: Vec<u16>,
    rows: Vec<u16>,
}

impl Tables {
    /// Tables of any words, such as [`Tables::nodes`] and [`Tables::rows`] gave earlier. Whether
    /// they hold together is judged when they are used (23, 24).
    #[must_use]
    pub fn of_words(nodes: Vec<u16>, rows: Vec<u16>) -> Tables {
        Tables { nodes, rows }
    }

    /// The words of the nodes, four a node; 0 past the last.
    #[must_use]
    pub fn nodes(&self) -> &[u16] {
        &self.nodes
    }

    /// The words of the rows, 33 a row; 0 past the last.
    #[must_use]
    pub fn rows(&self) -> &[u16] {
        &self.rows
    }
}

/// Registers and wait places: what a cycle by expressions starts from and comes to.
#[derive(Clone, Debug, PartialEq, Eq, Hash)]
pub struct Registers {
    pub(crate) value: [u32; REGISTERS],
    pub(crate) unknown: [u32; REGISTERS],
    pub(crate) places: [u8; PLACES],
}

impl Registers {
    /// As at the sheet's start: all registers x in all bits, all places 0.
    #[must_use]
    pub fn start(sheet: &Sheet) -> Registers {
        let (value, unknown) = ([0; REGISTERS], [u32::MAX; REGISTERS]);
        let mut registers = Registers { value, unknown, places: [0; PLACES] };
        for register in 0..sheet.registers() {
            let width = sheet.widths()[sheet.register(register)];
            registers.set_value(register, Value::all_unknown(width));
        }
        registers
    }

    /// Those of a state of the simulation.
    #[must_use]
    pub fn of(sheet: &Sheet, state: &State) -> Registers {
        let mut registers = Registers::start(sheet);
        for register in 0..sheet.registers() {
            registers.set_value(register, state.value(sheet.register(register)));
        }
        for thread in 0..PLACES {
            registers.places[thread] = state.place(thread);
        }
        registers
    }

    /// A register's value.
    ///
    /// # Panics
    ///
    /// From register 32 on, which no sheet has.
    #[must_use]
    pub fn value(&self, register: usize) -> Value {
        Value { number: self.value[register], unknown: self.unknown[register] }
    }

    /// Sets a register's value.
    ///
    /// # Panics
    ///
    /// From register 32 on, which no sheet has.
    pub fn set_value(&mut self, register: usize, value: Value) {
        (self.value[register], self.unknown[register]) = (value.number, value.unknown);
    }

    /// The place that a thread waits at.
    ///
    /// # Panics
    ///
    /// From thread 8 on, which no sheet has.
    #[must_use]
    pub fn place(&self, thread: usize) -> u8 {
        self.places[thread]
    }

    /// Sets the place that a thread waits at.
    ///
    /// # Panics
    ///
    /// From thread 8 on, which no sheet has.
    pub fn set_place(&mut self, thread: usize, place: u8) {
        self.places[thread] = place;
    }
}

/// The wires after a cycle by expressions.
#[derive(Clone, Debug, PartialEq, Eq, Hash)]
pub struct Wires {
    pub(crate) value: [u32; WIRES],
    pub(crate) unknown: [u32; WIRES],
}

impl Wires {
    /// A wire's value; x in 32 bits past the sheet's.
    ///
    /// # Panics
    ///
    /// From wire 32 on, which no sheet has.
    #[must_use]
    pub fn value(&self, wire: usize) -> Value {
        Value { number: self.value[wire], unknown: self.unknown[wire] }
    }

    pub(crate) fn unknown() -> Wires {
        Wires { value: [0; WIRES], unknown: [u32::MAX; WIRES] }
    }
}

/// What clock cycles by expressions came to.
#[derive(Clone, Debug, PartialEq, Eq)]
pub struct Cycles {
    /// How many cycles were accepted.
    pub accepted: usize,
    /// What refused the next one; none where all rows ran.
    pub stopped: Option<Refusal>,
    /// The wires after the last accepted cycle; x in 32 bits before the first.
    pub wires: Wires,
}

impl Sheet {
    /// The expressions of what every register becomes at a clock edge.
    ///
    /// ```
    /// # let bytes = [2, 1, 0, 1, 1, 8, 8, 0x0C, 0x10, 1, 1, 0, 0x23, 2, 2, 1];
    /// # let sheet = walbryts::Sheet::read(&bytes)?;
    /// use walbryts::{Inputs, Registers, Value};
    /// let tables = sheet.extract()?;
    /// let mut registers = Registers::start(&sheet);
    /// sheet.cycle(&tables, &mut registers, &Inputs::from([5]))?;
    /// assert_eq!(registers.value(0), Value::known(5));
    /// # Ok::<(), walbryts::Refusal>(())
    /// ```
    ///
    /// # Errors
    ///
    /// Numbers 12 to 21, the lowest rule that the sheet breaks.
    pub fn extract(&self) -> Result<Tables, Refusal> {
        let (sheet, len) = self.raw();
        let mut tables = Tables { nodes: vec![0; NODE_WORDS], rows: vec![0; ROW_WORDS] };
        let Tables { nodes, rows } = &mut tables;
        // Safety: pointers and lengths are those of one slice each.
        let number = unsafe {
            raw::walbryts_extract(
                sheet,
                len,
                nodes.as_mut_ptr(),
                nodes.len(),
                rows.as_mut_ptr(),
                rows.len(),
            )
        };
        Refusal::judge(number).map(|()| tables)
    }

    /// One clock cycle by expressions, with the inputs from 1 up; the wires after it.
    ///
    /// # Errors
    ///
    /// 23, 12 to 21, 24, 31, 25. The registers stay.
    pub fn cycle(
        &self,
        tables: &Tables,
        registers: &mut Registers,
        inputs: &Inputs,
    ) -> Result<Wires, Refusal> {
        let (sheet, len) = self.raw();
        let Tables { nodes, rows } = tables;
        let mut wires = Wires::unknown();
        // Safety: pointers and lengths are those of one slice each; each array has its length.
        let number = unsafe {
            raw::walbryts_cycle(
                sheet,
                len,
                nodes.as_ptr(),
                nodes.len(),
                rows.as_ptr(),
                rows.len(),
                registers.value.as_mut_ptr(),
                registers.unknown.as_mut_ptr(),
                registers.places.as_mut_ptr(),
                inputs.count,
                inputs.value.as_ptr(),
                inputs.unknown.as_ptr(),
                wires.value.as_mut_ptr(),
                wires.unknown.as_mut_ptr(),
            )
        };
        Refusal::judge(number).map(|()| wires)
    }

    /// A clock cycle by expressions for each row, up to the first that is refused. It gives what
    /// [`Sheet::cycle`] gives row by row, and is much faster.
    ///
    /// # Errors
    ///
    /// 23, 12 to 21, 24, 31. The registers stay.
    pub fn cycles(
        &self,
        tables: &Tables,
        registers: &mut Registers,
        rows: &Rows,
    ) -> Result<Cycles, Refusal> {
        let (sheet, len) = self.raw();
        let (value, unknown) = rows.lent(self);
        let mut wires = Wires::unknown();
        let mut accepted = 0;
        // Safety: as in `cycle`, with pointer and length of two more slices; the number is a
        // local's.
        let number = unsafe {
            raw::walbryts_cycles(
                sheet,
                len,
                tables.nodes.as_ptr(),
                tables.nodes.len(),
                tables.rows.as_ptr(),
                tables.rows.len(),
                registers.value.as_mut_ptr(),
                registers.unknown.as_mut_ptr(),
                registers.places.as_mut_ptr(),
                value.as_ptr(),
                value.len(),
                unknown.as_ptr(),
                unknown.len(),
                &mut accepted,
                wires.value.as_mut_ptr(),
                wires.unknown.as_mut_ptr(),
            )
        };
        match rows.stop(self, number) {
            Some(refusal) if refusal.reason() != Reason::Inputs => Err(refusal),
            stopped => Ok(Cycles { accepted, stopped, wires }),
        }
    }
}
