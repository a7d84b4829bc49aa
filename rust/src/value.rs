use std::fmt;

/// A value: a number, and the marks of its unknown bits. A bit whose mark is 1 isn't known, and is 0
/// in the number; both are below 2 to the width of what holds the value. Where they aren't so, it
/// doesn't fit, and calls refuse it.
///
/// ```
/// use walbryts::Value;
/// let six = Value::known(6);
/// let partly = Value { number: 0b100, unknown: 0b010 };
/// let dead = Value::all_unknown(3);
/// assert!(six.is_known() && !partly.is_known());
/// assert_eq!([six, partly, dead].map(|value| value.shown(3)), ["6", "b1x0", "x"]);
/// ```
#[derive(Clone, Copy, Debug, PartialEq, Eq, Hash)]
pub struct Value {
    /// The number, 0 under each mark.
    pub number: u32,
    /// The marks: bit n is 1 where bit n of the value is unknown.
    pub unknown: u32,
}

impl Value {
    /// A known number.
    #[must_use]
    pub const fn known(number: u32) -> Value {
        Value { number, unknown: 0 }
    }

    /// x in all bits of a width; from 32 on, in 32 bits.
    #[must_use]
    pub const fn all_unknown(width: u8) -> Value {
        let unknown = if width < 32 { (1 << width) - 1 } else { u32::MAX };
        Value { number: 0, unknown }
    }

    /// Is every bit known?
    #[must_use]
    pub const fn is_known(self) -> bool {
        self.unknown == 0
    }

    /// The number, none where a bit is unknown.
    #[must_use]
    pub const fn as_known(self) -> Option<u32> {
        if self.is_known() { Some(self.number) } else { None }
    }

    /// The value of a variable of this width as the table of `walbryts run` shows it: in decimal, `x`
    /// where all bits are unknown, else `b` and a digit for each bit, `x` for an unknown one.
    #[must_use]
    pub fn shown(self, width: u8) -> String {
        match self {
            Value { number, unknown: 0 } => number.to_string(),
            _ if self == Value::all_unknown(width) => "x".to_string(),
            _ => self.digits(width.min(32).into()),
        }
    }

    /// `b` and the lowest bits as digits, the highest first.
    fn digits(self, bits: u32) -> String {
        let digit = |bit: u32| match (self.unknown >> bit & 1, self.number >> bit & 1) {
            (1, _) => 'x',
            (_, 1) => '1',
            _ => '0',
        };
        std::iter::once('b').chain((0..bits).rev().map(digit)).collect()
    }
}

impl From<u32> for Value {
    fn from(number: u32) -> Value {
        Value::known(number)
    }
}

/// In decimal where it is known; else `b` and its digits from the highest that isn't a known 0, `x`
/// for an unknown one. [`Value::shown`] has the form of a table, which goes by the width.
impl fmt::Display for Value {
    fn fmt(&self, f: &mut fmt::Formatter) -> fmt::Result {
        match self.as_known() {
            Some(number) => number.fmt(f),
            None => f.pad(&self.digits(32 - (self.number | self.unknown).leading_zeros())),
        }
    }
}
