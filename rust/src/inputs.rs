use crate::refusal::Refusal;
use crate::sheet::Sheet;
use crate::value::Value;

/// How many inputs a call takes at most.
pub(crate) const INPUTS: usize = 16;

/// The values of inputs: for an instant all of them, the clock first; for a cycle by
/// expressions those from 1 up.
///
/// ```
/// use walbryts::{Inputs, Value};
/// let low = Inputs::from([0, 5]);
/// let dead = Inputs::new(&[Value::known(0), Value::all_unknown(8)]);
/// assert_ne!(low, dead);
/// ```
#[derive(Clone, Copy, Debug, PartialEq, Eq, Hash)]
pub struct Inputs {
    pub(crate) count: u8,
    pub(crate) value: [u32; INPUTS],
    pub(crate) unknown: [u32; INPUTS],
}

impl Inputs {
    /// Of values in their order. Another number of them than the call needs is refused by the
    /// call, with 25.
    #[must_use]
    pub fn new(values: &[Value]) -> Inputs {
        let count = u8::try_from(values.len()).unwrap_or(u8::MAX);
        let mut inputs = Inputs { count, value: [0; INPUTS], unknown: [0; INPUTS] };
        for (i, value) in values.iter().take(INPUTS).enumerate() {
            (inputs.value[i], inputs.unknown[i]) = (value.number, value.unknown);
        }
        inputs
    }
}

impl<T: Into<Value>, const N: usize> From<[T; N]> for Inputs {
    fn from(values: [T; N]) -> Inputs {
        Inputs::new(&values.map(Into::into))
    }
}

/// The inputs of many clock cycles, a row for each: those from 1 up, the clock's left out.
///
/// ```
/// # let bytes = [2, 1, 0, 1, 1, 8, 8, 0x0C, 0x10, 1, 1, 0, 0x23, 2, 2, 1];
/// # let sheet = walbryts::Sheet::read(&bytes).unwrap();
/// let mut rows = walbryts::Rows::new(&sheet);
/// for number in 0..100 {
///     rows.push([number])?;
/// }
/// assert_eq!(rows.len(), 100);
/// assert_eq!(rows.push([1, 2]).unwrap_err().number(), 25);
/// # Ok::<(), walbryts::Refusal>(())
/// ```
#[derive(Clone, Debug, PartialEq, Eq)]
pub struct Rows {
    inputs: usize,
    pub(crate) value: Vec<u32>,
    pub(crate) unknown: Vec<u32>,
}

impl Rows {
    /// No rows, for a sheet with as many inputs as this one.
    #[must_use]
    pub fn new(sheet: &Sheet) -> Rows {
        Rows { inputs: sheet.inputs(), value: Vec::new(), unknown: Vec::new() }
    }

    /// Adds a row.
    ///
    /// # Errors
    ///
    /// 25 where the sheet has another number of inputs; nothing is added then. Values that don't
    /// fit are refused by the call that runs the rows.
    pub fn push<T: Into<Value>>(
        &mut self,
        inputs: impl IntoIterator<Item = T>,
    ) -> Result<(), Refusal> {
        let start = self.value.len();
        self.value.push(0);
        self.unknown.push(0);
        for value in inputs {
            let Value { number, unknown } = value.into();
            self.value.push(number);
            self.unknown.push(unknown);
        }
        let fits = self.value.len() - start == self.inputs;
        let end = if fits { start + INPUTS } else { start };
        self.value.resize(end, 0);
        self.unknown.resize(end, 0);
        if fits { Ok(()) } else { Err(Refusal::of(25)) }
    }

    /// How many rows there are.
    #[must_use]
    pub fn len(&self) -> usize {
        self.value.len() / INPUTS
    }

    /// Is there no row?
    #[must_use]
    pub fn is_empty(&self) -> bool {
        self.value.is_empty()
    }

    /// Numbers and marks as the library takes them; no rows, where they are those of a sheet with
    /// another number of inputs, so that all else is judged first.
    pub(crate) fn lent(&self, sheet: &Sheet) -> (&[u32], &[u32]) {
        match self.fit(sheet) {
            true => (&self.value, &self.unknown),
            false => (&[], &[]),
        }
    }

    fn fit(&self, sheet: &Sheet) -> bool {
        self.inputs == sheet.inputs()
    }

    /// What stopped a call that was lent the rows: the number that it gave, else 25 where there
    /// are rows and they don't fit.
    pub(crate) fn stop(&self, sheet: &Sheet, number: u8) -> Option<Refusal> {
        match number == 0 && !self.fit(sheet) && !self.is_empty() {
            true => Some(Refusal::of(25)),
            false => Refusal::stop(number),
        }
    }
}
