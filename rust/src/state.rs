use std::error::Error;
use std::fmt;

use crate::raw;
use crate::refusal::Refusal;
use crate::sheet::Sheet;
use crate::value::Value;

/// The bytes of a saved state.
pub const SAVED: usize = 1025;

/// How many users step one state.
pub const USERS: usize = 4;

/// What a state holds.
const VALUES: usize = 80;
const SLOTS: usize = 32;
const PLACES: usize = 8;
const MARKS: usize = 32;

/// Where a saved state has what: the form's byte, then 80 values of 8 bytes, 32 slots of 9,
/// 8 places, 32 marks of wires, time, four counts, four allowances.
const VALUES_AT: usize = 1;
const SLOTS_AT: usize = VALUES_AT + 8 * VALUES;
const PLACES_AT: usize = SLOTS_AT + 9 * SLOTS;
const MARKS_AT: usize = PLACES_AT + PLACES;
const TIME_AT: usize = MARKS_AT + MARKS;
const COUNTS_AT: usize = TIME_AT + 8;
const ALLOWANCES_AT: usize = COUNTS_AT + 8 * USERS;

/// A state of the simulation. It is kept in its saved form, so that saving it costs nothing;
/// whether it fits a sheet is judged by the calls, which refuse it with 31 otherwise.
///
/// ```
/// # let bytes = [2, 1, 0, 1, 1, 8, 8, 0x0C, 0x10, 1, 1, 0, 0x23, 2, 2, 1];
/// use walbryts::{Sheet, State, Value};
/// let sheet = Sheet::read(&bytes)?;
/// let state = sheet.start([100, 20, 0, 0]);
/// assert_eq!(state.value(sheet.register(0)), Value::all_unknown(8));
/// assert_eq!((state.time(), state.count(1), state.allowance(1)), (0, 0, 20));
/// assert_eq!(State::load(state.save()), Ok(state));
/// # Ok::<(), walbryts::Refusal>(())
/// ```
#[derive(Clone, PartialEq, Eq, Hash)]
pub struct State {
    pub(crate) bytes: [u8; SAVED],
}

impl State {
    /// The saved form: a byte 4, which names the form, then 80 values (the number and its marks,
    /// 4 bytes each, low byte first), 32 pending slots (1 for held or 0, and a value), 8 places,
    /// 32 marks of wires that are due, time and four counts (8 bytes each), four allowances (4
    /// bytes each).
    #[must_use]
    pub fn save(&self) -> &[u8; SAVED] {
        &self.bytes
    }

    /// The state that was saved. [`State::bring_over`] takes one that an older release saved.
    ///
    /// # Errors
    ///
    /// Bytes of another length or form, or with a flag other than 0 and 1, are no saved state.
    pub fn load(saved: &[u8]) -> Result<State, NotSaved> {
        // An older form has other bytes.
        let bytes = saved.try_into().map_err(|_| NotSaved)?;
        // The proved library judges them.
        // Safety: pointer and length are those of one slice.
        match unsafe { raw::walbryts_is_state(saved.as_ptr(), saved.len()) } {
            true => Ok(State { bytes }),
            false => Err(NotSaved),
        }
    }

    /// The state of the sheet that an older release saved, in form 1 with time and one count of 4
    /// bytes each, in form 2 with 8, or in form 3 with four counts and allowances. An x becomes x in
    /// all bits of its variable's width; the one count becomes user 0's, the others' are 0, the
    /// allowances are these; form 3 keeps its own. All else is as it was. One of the form that
    /// [`State::save`] gives is taken as it stands.
    ///
    /// ```
    /// # let bytes = [2, 1, 0, 1, 1, 8, 8, 0x0C, 0x10, 1, 1, 0, 0x23, 2, 2, 1];
    /// use walbryts::{Sheet, State, Value};
    /// let sheet = Sheet::read(&bytes)?;
    /// let mut old = vec![0; 641];
    /// old[0] = 1;
    /// old[1 + 5 * 1 + 1] = 7; // variable 1 was 7
    /// old[1 + 5 * 2] = 1; // variable 2 was x
    /// old[633..637].copy_from_slice(&258_u32.to_le_bytes());
    /// old[637..641].copy_from_slice(&3_u32.to_le_bytes());
    /// let state = State::bring_over(&sheet, &old, [100, 20, 0, 0])?;
    /// assert_eq!((state.time(), state.count(0), state.allowance(1)), (258, 3, 20));
    /// assert_eq!((state.value(1), state.value(2)), (Value::known(7), Value::all_unknown(8)));
    /// assert_eq!(State::bring_over(&sheet, &old, [2, 20, 0, 0]).unwrap_err().number(), 31);
    /// # Ok::<(), walbryts::Refusal>(())
    /// ```
    ///
    /// # Errors
    ///
    /// 31 where the bytes are no saved state, or their one count is above user 0's allowance.
    pub fn bring_over(
        sheet: &Sheet,
        saved: &[u8],
        allowances: [u32; USERS],
    ) -> Result<State, Refusal> {
        let mut bytes = [0; SAVED];
        let (sheet, sheet_len) = sheet.raw();
        let (old, len, lent) = (saved.as_ptr(), saved.len(), bytes.as_mut_ptr());
        let allowed = allowances.as_ptr();
        // Safety: pointers and lengths are those of one slice each, a saved state has so many
        // bytes, and there are four allowances.
        let number =
            unsafe { raw::walbryts_bring_over(sheet, sheet_len, old, len, allowed, lent) };
        Refusal::judge(number).map(|()| State { bytes })
    }

    /// A variable's value.
    ///
    /// # Panics
    ///
    /// From variable 80 on, which no sheet has.
    #[must_use]
    pub fn value(&self, variable: usize) -> Value {
        assert!(variable < VALUES, "there are {VALUES} variables");
        self.value_at(VALUES_AT + 8 * variable)
    }

    /// Sets a variable's value; wires that read it aren't marked. A value too wide for a sheet, or
    /// with a number under a mark, makes a state that doesn't fit it.
    ///
    /// # Panics
    ///
    /// From variable 80 on, which no sheet has.
    pub fn set_value(&mut self, variable: usize, value: Value) {
        assert!(variable < VALUES, "there are {VALUES} variables");
        let at = VALUES_AT + 8 * variable;
        self.bytes[at..at + 4].copy_from_slice(&value.number.to_le_bytes());
        self.bytes[at + 4..at + 8].copy_from_slice(&value.unknown.to_le_bytes());
    }

    /// The value pending for a register, if one is.
    ///
    /// # Panics
    ///
    /// From register 32 on, which no sheet has.
    #[must_use]
    pub fn pending(&self, register: usize) -> Option<Value> {
        assert!(register < SLOTS, "there are {SLOTS} registers");
        let at = SLOTS_AT + 9 * register;
        (self.bytes[at] == 1).then(|| self.value_at(at + 1))
    }

    /// The place that a thread is at.
    ///
    /// # Panics
    ///
    /// From thread 8 on, which no sheet has.
    #[must_use]
    pub fn place(&self, thread: usize) -> u8 {
        assert!(thread < PLACES, "there are {PLACES} threads");
        self.bytes[PLACES_AT + thread]
    }

    /// Is a wire due?
    ///
    /// # Panics
    ///
    /// From wire 32 on, which no sheet has.
    #[must_use]
    pub fn due(&self, wire: usize) -> bool {
        assert!(wire < MARKS, "there are {MARKS} wires");
        self.bytes[MARKS_AT + wire] == 1
    }

    /// How many instants were accepted.
    #[must_use]
    pub fn time(&self) -> u64 {
        self.counter_at(TIME_AT)
    }

    /// How many choices of a user were accepted.
    ///
    /// # Panics
    ///
    /// From user 4 on, which there isn't.
    #[must_use]
    pub fn count(&self, user: usize) -> u64 {
        assert!(user < USERS, "there are {USERS} users");
        self.counter_at(COUNTS_AT + 8 * user)
    }

    /// How many choices of a user may be accepted.
    ///
    /// # Panics
    ///
    /// From user 4 on, which there isn't.
    #[must_use]
    pub fn allowance(&self, user: usize) -> u32 {
        assert!(user < USERS, "there are {USERS} users");
        self.number_at(ALLOWANCES_AT + 4 * user)
    }

    fn value_at(&self, at: usize) -> Value {
        Value { number: self.number_at(at), unknown: self.number_at(at + 4) }
    }

    fn counter_at(&self, at: usize) -> u64 {
        u64::from_le_bytes(self.bytes[at..at + 8].try_into().expect("eight bytes"))
    }

    fn number_at(&self, at: usize) -> u32 {
        u32::from_le_bytes(self.bytes[at..at + 4].try_into().expect("four bytes"))
    }
}

impl fmt::Debug for State {
    fn fmt(&self, f: &mut fmt::Formatter) -> fmt::Result {
        let values: Vec<Value> = (0..VALUES).map(|v| self.value(v)).collect();
        let pending: Vec<Option<Value>> = (0..SLOTS).map(|r| self.pending(r)).collect();
        let due: Vec<usize> = (0..MARKS).filter(|&w| self.due(w)).collect();
        let counts: Vec<u64> = (0..USERS).map(|user| self.count(user)).collect();
        let allowances: Vec<u32> = (0..USERS).map(|user| self.allowance(user)).collect();
        f.debug_struct("State")
            .field("values", &values)
            .field("pending", &pending)
            .field("places", &&self.bytes[PLACES_AT..MARKS_AT])
            .field("due", &due)
            .field("time", &self.time())
            .field("counts", &counts)
            .field("allowances", &allowances)
            .finish()
    }
}

/// The bytes are no saved state.
#[derive(Clone, Copy, Debug, PartialEq, Eq, Hash)]
pub struct NotSaved;

impl fmt::Display for NotSaved {
    fn fmt(&self, f: &mut fmt::Formatter) -> fmt::Result {
        f.write_str("the bytes are no saved state")
    }
}

impl Error for NotSaved {}
