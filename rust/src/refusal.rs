use std::error::Error;
use std::fmt;

/// Why a call was refused: a reason, whose number is document 01's, and for a sheet or a text the
/// byte at which it was met.
#[derive(Clone, Copy, Debug, PartialEq, Eq, Hash)]
pub struct Refusal {
    reason: Reason,
    place: Option<usize>,
}

impl Refusal {
    /// What was wrong.
    #[must_use]
    pub fn reason(&self) -> Reason {
        self.reason
    }

    /// Document 01's number.
    #[must_use]
    pub fn number(&self) -> u8 {
        self.reason.number()
    }

    /// The byte at which it was met: of the sheet for numbers 1 to 11, of the text for 41 to 43;
    /// none for other numbers, which aren't met at a byte.
    #[must_use]
    pub fn place(&self) -> Option<usize> {
        self.place
    }

    pub(crate) fn at(number: u8, place: usize) -> Refusal {
        Refusal { place: Some(place), ..Refusal::of(number) }
    }

    /// Numbers come from the library, whose numbers are proved to be document 01's.
    pub(crate) fn of(number: u8) -> Refusal {
        let reason = Reason::of_number(number).expect("a number of document 01");
        Refusal { reason, place: None }
    }

    /// None where the number is 0.
    pub(crate) fn stop(number: u8) -> Option<Refusal> {
        (number != 0).then(|| Refusal::of(number))
    }

    /// What a call that gives only its number comes to.
    pub(crate) fn judge(number: u8) -> Result<(), Refusal> {
        Refusal::stop(number).map_or(Ok(()), Err)
    }
}

impl fmt::Display for Refusal {
    fn fmt(&self, f: &mut fmt::Formatter) -> fmt::Result {
        write!(f, "refused {}", self.number())?;
        if let Some(place) = self.place {
            write!(f, " at byte {place}")?;
        }
        write!(f, ": {}", self.reason)
    }
}

impl Error for Refusal {}

/// Makes the reasons with their numbers and the words that the library has for them (a test holds them
/// to the library's), one line for each.
macro_rules! reasons {
    ($($name:ident = $number:literal, $words:literal;)*) => {
        /// What was wrong, one case for each of document 01's numbers.
        #[derive(Clone, Copy, Debug, PartialEq, Eq, Hash, PartialOrd, Ord)]
        #[non_exhaustive]
        #[repr(u8)]
        pub enum Reason {
            $(#[doc = concat!(stringify!($number), ": ", $words, ".")] $name = $number,)*
        }

        impl Reason {
            /// All of them, by number.
            pub const ALL: &[Reason] = &[$(Reason::$name),*];

            /// The words in this documentation.
            #[cfg(test)]
            fn words(self) -> &'static str {
                match self {
                    $(Reason::$name => $words,)*
                }
            }
        }
    };
}

reasons! {
    SheetTooLong = 1, "the sheet is over 8,192 bytes";
    EndsEarly = 2, "the sheet ends early";
    Count = 3, "a count is out of range";
    Width = 4, "a width is out of range";
    Map = 5, "a bit map that is not allowed";
    Field = 6, "a field is out of range";
    Depth = 7, "nested too deep";
    WidthsDisagree = 8, "widths disagree";
    Target = 9, "the target is no register";
    BytesAfter = 10, "bytes stand after the end";
    ThreadTooLong = 11, "a thread has over 256 instructions";
    TwoWriters = 12, "two threads write one register";
    BothWays = 13, "a register is written both ways";
    PlainRead = 14, "a register written by plain assignment is read elsewhere";
    OtherWait = 15, "a wait other than the single posedge of the clock";
    NoFirstWait = 16, "a thread does not start with a wait";
    NoSureWait = 17, "a loop or a thread body does not surely wait";
    ClockRead = 18, "the clock is read in an expression";
    WireOrder = 19, "a wire reads itself or a higher wire";
    TooManyWaits = 20, "over 32 waits";
    TooManyNodes = 21, "over 4,096 nodes";
    NoItem = 22, "the choice names no item";
    TableLength = 23, "a lent table has another length";
    Table = 24, "the tables do not hold together";
    Inputs = 25, "the inputs are of the wrong number, too wide, or have a number under a mark";
    Unfit = 31, "the state does not fit the sheet";
    NotQuiet = 32, "an instant while the state is not quiet";
    NotEnabled = 33, "the item is not enabled";
    CommitTooEarly = 34, "a commit while an item is enabled";
    NothingPending = 35, "a commit with nothing pending";
    Full = 36, "the time or a module's turns are full";
    TextTooLong = 41, "the text is over 16,384 bytes";
    NotDerived = 42, "the text is none of the forms that are read";
    Names = 43, "a name is undeclared or declared twice, or a wire has not one assign";
    NoUser = 46, "there is no such user";
    UsedUp = 47, "the user's allowance of choices is used up";
    ListLength = 48, "the list has no record, or more than eight";
    LastServed = 49, "the last-served number is outside the list";
}

impl Reason {
    /// Document 01's number.
    #[must_use]
    pub fn number(self) -> u8 {
        self as u8
    }

    /// The reason of a number, where there is one.
    #[must_use]
    pub fn of_number(number: u8) -> Option<Reason> {
        Reason::ALL.iter().copied().find(|reason| reason.number() == number)
    }
}

/// In the command's words, which are the library's.
impl fmt::Display for Reason {
    fn fmt(&self, f: &mut fmt::Formatter) -> fmt::Result {
        f.write_str(&self.refused())
    }
}

#[cfg(test)]
mod tests {
    use super::Reason;

    /// What the documentation says of a reason is what the library says.
    #[test]
    fn one_table_of_words() {
        for reason in Reason::ALL.iter().copied() {
            assert_eq!(reason.refused(), reason.words());
            assert_eq!(reason.to_string(), reason.words());
        }
    }
}
