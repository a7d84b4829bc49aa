//! States as bytes. Multi-byte numbers are low byte first.

use crate::dispatch::Record;
use crate::machine::number;
use crate::module::Module;
use crate::sheet::MOST_WIDTH;
use crate::state::{Pending, State, USERS};
use crate::value::Value;

/// The form that is written. The first byte of a saved state names its form.
pub const FORM: u8 = 4;
/// The forms before it, whose values are a number or x as a whole: with four counts, and with one
/// count and counters of 8 bytes and of 4.
pub const COUNTS: u8 = 3;
pub const LONG: u8 = 2;
pub const SHORT: u8 = 1;
/// The bytes of a state without that byte.
pub const STATE_BYTES: usize = 1_024;
pub const COUNTS_BYTES: usize = 688;
pub const LONG_BYTES: usize = 648;
pub const SHORT_BYTES: usize = 640;

/// The saved state: its form, then its bytes.
pub fn save(state: &State) -> Vec<u8> {
    let mut bytes = vec![FORM];
    write_state(state, &mut bytes);
    bytes
}

/// The state saved in form 1, 2 or 3, in which a value with any unknown bit is x; what lies in its
/// number stays there. Forms 1 and 2 have the time and user 0's count alone; none in form 1 where one
/// of the two has more than 32 bits.
pub fn save_old(form: u8, state: &State) -> Option<Vec<u8>> {
    let mut bytes = vec![form];
    write_body(state, &mut bytes, write_old_value);
    match form {
        SHORT => {
            let short = [u32::try_from(state.time).ok()?, u32::try_from(state.counts[0]).ok()?];
            bytes.extend(short.iter().flat_map(|number| number.to_le_bytes()));
        }
        LONG => {
            bytes.extend([state.time, state.counts[0]].iter().flat_map(|n| n.to_le_bytes()))
        }
        _ => write_tail(state, &mut bytes),
    }
    Some(bytes)
}

/// The state that was saved in the form that is written. Bytes of another length, form or flag
/// are no state.
pub fn load(saved: &[u8]) -> Option<State> {
    let mut bytes = Bytes::new(saved);
    let form = bytes.byte()?;
    let state = bytes.state()?;
    (form == FORM && bytes.is_empty()).then_some(state)
}

/// The state that was saved in any form. An x of the older forms becomes unknown in all bits of its
/// variable's width, a pending one of its register's, in 32 bits past the sheet's. One count becomes
/// user 0's and the allowances those handed over; a count above its allowance is refused as bytes
/// that are no state are: 31.
pub fn bring_over(
    module: &Module,
    saved: &[u8],
    allowances: [u32; USERS],
) -> Result<State, u8> {
    let brought = match saved.first() {
        Some(&FORM) => load(saved),
        Some(&COUNTS) => load_old(module, saved),
        _ => load_old(module, saved)
            .map(|state| State { allowances, ..state })
            .filter(|state| state.counts[0] <= allowances[0].into()),
    };
    brought.ok_or(number::UNFIT)
}

fn load_old(module: &Module, saved: &[u8]) -> Option<State> {
    let mut bytes = Bytes::new(saved);
    let form = bytes.byte().filter(|form| (SHORT..=COUNTS).contains(form))?;
    let state = bytes.old_state(form, module)?;
    bytes.is_empty().then_some(state)
}

// ---- writing

/// 80 values; 32 pending slots; 8 places; 32 marks; time; four counts and four allowances.
pub fn write_state(state: &State, bytes: &mut Vec<u8>) {
    write_body(state, bytes, write_value);
    write_tail(state, bytes);
}

fn write_tail(state: &State, bytes: &mut Vec<u8>) {
    bytes.extend(state.time.to_le_bytes());
    bytes.extend(state.counts.iter().flat_map(|count| count.to_le_bytes()));
    write_allowances(&state.allowances, bytes);
}

pub fn write_allowances(allowances: &[u32; USERS], bytes: &mut Vec<u8>) {
    bytes.extend(allowances.iter().flat_map(|allowance| allowance.to_le_bytes()));
}

fn write_body(state: &State, bytes: &mut Vec<u8>, write: fn(&Value, &mut Vec<u8>)) {
    state.values.iter().for_each(|value| write(value, bytes));
    for pending in &state.pending {
        bytes.push(pending.held.into());
        write(&pending.slot, bytes);
    }
    bytes.extend(state.places);
    bytes.extend(state.due.map(u8::from));
}

/// A value: its number, then its marks.
pub fn write_value(value: &Value, bytes: &mut Vec<u8>) {
    bytes.extend(value.number.to_le_bytes());
    bytes.extend(value.unknown.to_le_bytes());
}

/// Busy or not, then the turns, of each record.
pub fn write_turns(records: &[Record], bytes: &mut Vec<u8>) {
    for record in records {
        bytes.push(record.busy.into());
        bytes.extend(record.turns.to_le_bytes());
    }
}

/// 1 for x or 0, then the number.
fn write_old_value(value: &Value, bytes: &mut Vec<u8>) {
    bytes.push((!value.is_known()).into());
    bytes.extend(value.number.to_le_bytes());
}

// ---- reading

/// Bytes not read yet. Each reader gives none where they end too early or a flag is
/// neither 0 nor 1.
pub struct Bytes<'a>(&'a [u8]);

impl<'a> Bytes<'a> {
    pub fn new(bytes: &'a [u8]) -> Bytes<'a> {
        Bytes(bytes)
    }

    pub fn is_empty(&self) -> bool {
        self.0.is_empty()
    }

    pub fn rest(&self) -> &'a [u8] {
        self.0
    }

    /// The next so many bytes.
    pub fn take(&mut self, count: usize) -> Option<&'a [u8]> {
        let (front, rest) = self.0.split_at_checked(count)?;
        self.0 = rest;
        Some(front)
    }

    fn array<const N: usize>(&mut self) -> Option<[u8; N]> {
        self.take(N)?.try_into().ok()
    }

    pub fn byte(&mut self) -> Option<u8> {
        self.array().map(u8::from_le_bytes)
    }

    pub fn word(&mut self) -> Option<u16> {
        self.array().map(u16::from_le_bytes)
    }

    fn number(&mut self) -> Option<u32> {
        self.array().map(u32::from_le_bytes)
    }

    fn long(&mut self) -> Option<u64> {
        self.array().map(u64::from_le_bytes)
    }

    pub fn flag(&mut self) -> Option<bool> {
        match self.byte()? {
            0 => Some(false),
            1 => Some(true),
            _ => None,
        }
    }

    pub fn value(&mut self) -> Option<Value> {
        Some(Value { number: self.number()?, unknown: self.number()? })
    }

    pub fn turns(&mut self) -> Option<Record> {
        Some(Record { busy: self.flag()?, turns: self.number()? })
    }

    /// A value of the older forms, of this width. The number under x means nothing.
    fn old_value(&mut self, width: u8) -> Option<Value> {
        let (unknown, number) = (self.flag()?, self.number()?);
        Some(if unknown { Value::x(width) } else { Value::known(number) })
    }

    /// A state in the form that is written.
    pub fn state(&mut self) -> Option<State> {
        let mut state = State::ZERO;
        for value in &mut state.values {
            *value = self.value()?;
        }
        for pending in &mut state.pending {
            *pending = Pending { held: self.flag()?, slot: self.value()? };
        }
        self.places_and_marks(&mut state)?;
        self.tail(&mut state)?;
        Some(state)
    }

    /// A state in an older form, of a module.
    fn old_state(&mut self, form: u8, module: &Module) -> Option<State> {
        let width = |widths: &[u8], at| widths.get(at).copied().unwrap_or(MOST_WIDTH);
        let registers = &module.widths[module.inputs.into()..][..module.registers.into()];
        let mut state = State::ZERO;
        for (variable, value) in state.values.iter_mut().enumerate() {
            *value = self.old_value(width(&module.widths, variable))?;
        }
        for (register, pending) in state.pending.iter_mut().enumerate() {
            let held = self.flag()?;
            *pending = Pending { held, slot: self.old_value(width(registers, register))? };
        }
        self.places_and_marks(&mut state)?;
        let counters = (&mut state.time, &mut state.counts[0]);
        match form {
            SHORT => {
                (*counters.0, *counters.1) = (self.number()?.into(), self.number()?.into())
            }
            LONG => (*counters.0, *counters.1) = (self.long()?, self.long()?),
            _ => self.tail(&mut state)?,
        }
        Some(state)
    }

    fn places_and_marks(&mut self, state: &mut State) -> Option<()> {
        state.places = self.array()?;
        for due in &mut state.due {
            *due = self.flag()?;
        }
        Some(())
    }

    /// Time, counts and allowances.
    fn tail(&mut self, state: &mut State) -> Option<()> {
        state.time = self.long()?;
        for count in &mut state.counts {
            *count = self.long()?;
        }
        state.allowances = self.allowances()?;
        Some(())
    }

    pub fn allowances(&mut self) -> Option<[u32; USERS]> {
        let mut allowances = [0; USERS];
        for allowance in &mut allowances {
            *allowance = self.number()?;
        }
        Some(allowances)
    }
}
