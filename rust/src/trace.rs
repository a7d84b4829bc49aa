use crate::value::Value;

/// The words of a row.
pub(crate) const ROW: usize = 88;

const VARIABLES: usize = 80;
const THREADS: usize = 8;

/// What many cycles left, instant by instant: two rows a cycle, the first with the clock low, the
/// second with the clock high. [`Plan::trace`](crate::Plan::trace) gives one by events,
/// [`ClockPlan::trace`](crate::ClockPlan::trace) by expressions.
#[derive(Clone, Debug, PartialEq, Eq)]
pub struct Trace {
    words: Vec<u64>,
}

impl Trace {
    /// Room for two rows to each of so many cycles.
    pub(crate) fn lent(cycles: usize) -> Vec<u64> {
        vec![0; 2 * ROW * cycles]
    }

    /// The rows that were written.
    pub(crate) fn of(mut words: Vec<u64>, rows: usize) -> Trace {
        words.truncate(ROW * rows);
        Trace { words }
    }

    /// How many rows there are: one for each instant that was done.
    #[must_use]
    pub fn len(&self) -> usize {
        self.words.len() / ROW
    }

    /// Is there no row?
    #[must_use]
    pub fn is_empty(&self) -> bool {
        self.words.is_empty()
    }

    /// A variable's value in a row; past the sheet's variables x in 32 bits.
    ///
    /// # Panics
    ///
    /// Where there is no such row, and from variable 80 on, which no sheet has.
    #[must_use]
    pub fn value(&self, row: usize, variable: usize) -> Value {
        assert!(variable < VARIABLES, "there are {VARIABLES} variables");
        let word = self.words[ROW * row + variable];
        Value { number: low(word), unknown: low(word >> 32) }
    }

    /// The place that a thread is at in a row.
    ///
    /// # Panics
    ///
    /// Where there is no such row, and from thread 8 on, which no sheet has.
    #[must_use]
    pub fn place(&self, row: usize, thread: usize) -> u8 {
        assert!(thread < THREADS, "there are {THREADS} threads");
        self.words[ROW * row + VARIABLES + thread].to_le_bytes()[0]
    }

    /// The rows as the library writes them, 88 words each: 80 variables, the number in the lower
    /// half of a word and the marks in the upper one, then 8 places.
    #[must_use]
    pub fn words(&self) -> &[u64] {
        &self.words
    }
}

/// The lower half of a word.
fn low(word: u64) -> u32 {
    u32::try_from(word & u64::from(u32::MAX)).expect("32 bits")
}
