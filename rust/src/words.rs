//! Sheets as hexadecimal text, refusals in words, and what breaks a rule of extraction.

use std::error::Error;
use std::fmt;

use crate::raw;
use crate::refusal::{Reason, Refusal};
use crate::sheet::Sheet;

/// The length of the buffer that words are written into.
const TEXT: usize = 65_536;

/// The length of the buffer for bytes: one more than any sheet has.
const BYTES: usize = 8_193;

/// What a call writes into a lent text, and what it gives.
fn written<T>(call: impl FnOnce(*mut u8, &mut usize) -> T) -> (String, T) {
    let (mut text, mut length) = (vec![0; TEXT], 0);
    let given = call(text.as_mut_ptr(), &mut length);
    text.truncate(length);
    (String::from_utf8(text).expect("words are plain text"), given)
}

impl Reason {
    /// What is allowed in place of what was refused, in the command's words; nothing for what says
    /// it itself.
    ///
    /// ```
    /// use walbryts::Reason;
    /// assert_eq!(Reason::NoUser.to_string(), "there is no such user");
    /// assert_eq!(Reason::NoUser.allowed(), "users 0 to 3");
    /// ```
    #[must_use]
    pub fn allowed(self) -> String {
        // Safety: the text has the length that the library writes into, the length is a local's.
        let call = |text, length: &mut usize| unsafe {
            raw::walbryts_allowed(self.number(), text, length)
        };
        written(call).0
    }

    /// The library's words for what was refused.
    pub(crate) fn refused(self) -> String {
        // Safety: as above.
        let call = |text, length: &mut usize| unsafe {
            raw::walbryts_reason(self.number(), text, length)
        };
        written(call).0
    }
}

// ---- hexadecimal text

impl Sheet {
    /// Reads a sheet from hexadecimal text: two digits to a byte, blanks and line ends between, and
    /// comments from `#` to the end of the line.
    ///
    /// ```
    /// let text = "02 01 00 01  # a clock and an input, a register, a thread
    ///     01 08 08             # their widths
    ///     0C 10010100 23020201 # always @(posedge i0) r0 <= i1;";
    /// let sheet = walbryts::Sheet::from_hex(text.as_bytes())?;
    /// assert_eq!((sheet.inputs(), sheet.registers()), (2, 1));
    ///
    /// let error = walbryts::Sheet::from_hex(b"02 01\n00 g0").unwrap_err();
    /// assert_eq!(error.to_string(), "2:4: no hexadecimal digit");
    /// # Ok::<(), walbryts::NoSheet>(())
    /// ```
    ///
    /// # Errors
    ///
    /// A character that is no digit, a digit without its second, each with its line and column; or
    /// what [`Sheet::read`] refuses.
    pub fn from_hex(text: &[u8]) -> Result<Sheet, NoSheet> {
        let mut bytes = vec![0; BYTES];
        let (mut length, mut line, mut column) = (0, 0, 0);
        let (at, len, lent) = (text.as_ptr(), text.len(), bytes.as_mut_ptr());
        // Safety: pointer and length are those of one slice, the bytes have their length, the
        // numbers are locals'.
        let error =
            unsafe { raw::walbryts_hex(at, len, lent, &mut length, &mut line, &mut column) };
        match error {
            0 => Sheet::read(&bytes[..length]).map_err(NoSheet::Refused),
            1 => Err(NoSheet::NoDigit { line, column }),
            _ => Err(NoSheet::SingleDigit { line, column }),
        }
    }
}

/// Why a hexadecimal text gives no sheet. Lines and columns count from 1.
#[derive(Clone, Copy, Debug, PartialEq, Eq, Hash)]
pub enum NoSheet {
    /// A character is no hexadecimal digit.
    NoDigit {
        /// Its line.
        line: usize,
        /// Its column.
        column: usize,
    },
    /// A digit stands without its second.
    SingleDigit {
        /// Its line.
        line: usize,
        /// Its column.
        column: usize,
    },
    /// The bytes are no sheet.
    Refused(Refusal),
}

impl fmt::Display for NoSheet {
    fn fmt(&self, f: &mut fmt::Formatter) -> fmt::Result {
        match self {
            NoSheet::NoDigit { line, column } => {
                write!(f, "{line}:{column}: no hexadecimal digit")
            }
            NoSheet::SingleDigit { line, column } => {
                write!(f, "{line}:{column}: a digit without its second")
            }
            NoSheet::Refused(refusal) => refusal.fmt(f),
        }
    }
}

impl Error for NoSheet {}

// ---- witnesses

/// What breaks the rule that extraction refuses a sheet by, proved to do so. What a rule doesn't name
/// is 0. Registers and wires go by their own numbers.
#[derive(Clone, Debug, PartialEq, Eq, Hash)]
pub struct Witness {
    /// The rule.
    pub reason: Reason,
    /// A thread.
    pub thread: usize,
    /// Another thread.
    pub other: usize,
    /// A register.
    pub register: usize,
    /// Is the reader `wire`, and no thread?
    pub wired: bool,
    /// A wire.
    pub wire: usize,
    /// The wire that `wire` reads.
    pub above: usize,
    /// A place of `thread`.
    pub place: usize,
    words: String,
}

impl Sheet {
    /// What breaks the rule that extraction refuses the sheet by; none where it accepts.
    ///
    /// ```
    /// let text = b"module m (clk, d); input clk, d; reg q;
    ///     always @(posedge clk) q <= d;
    ///     always @(posedge clk) q <= ~d;
    /// endmodule";
    /// let witness = walbryts::Sheet::from_verilog(text)?.witness().expect("refused");
    /// assert_eq!(witness.reason, walbryts::Reason::TwoWriters);
    /// assert_eq!((witness.register, witness.thread, witness.other), (0, 0, 1));
    /// assert_eq!(witness.to_string(), "register r0 is written by threads 0 and 1");
    /// # Ok::<(), walbryts::Refusal>(())
    /// ```
    #[must_use]
    pub fn witness(&self) -> Option<Witness> {
        let (sheet, len) = self.raw();
        let (mut thread, mut other, mut register, mut wired) = (0, 0, 0, false);
        let (mut wire, mut above, mut place) = (0, 0, 0);
        // Safety: pointer and length are those of one slice, the rest are locals'.
        let number = unsafe {
            raw::walbryts_witness(
                sheet,
                len,
                &mut thread,
                &mut other,
                &mut register,
                &mut wired,
                &mut wire,
                &mut above,
                &mut place,
            )
        };
        let reason = Reason::of_number(number)?;
        // Safety: as above, and the text has the length that the library writes into.
        let call = |text, length: &mut usize| unsafe {
            raw::walbryts_finding(sheet, len, text, length)
        };
        let (words, _) = written(call);
        Some(Witness { reason, thread, other, register, wired, wire, above, place, words })
    }
}

/// In the command's words.
impl fmt::Display for Witness {
    fn fmt(&self, f: &mut fmt::Formatter) -> fmt::Result {
        f.write_str(&self.words)
    }
}
