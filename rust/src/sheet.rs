use crate::raw;
use crate::refusal::Refusal;

/// The length of the buffer that the listing is written into; no listing is longer.
const TEXT: usize = 65_536;

/// A sheet that was read: one module as bytes, which every call takes.
///
/// Variables are numbered from 0: inputs, then registers, then wires. Input 0 is the clock.
#[derive(Clone, Debug, PartialEq, Eq, Hash)]
pub struct Sheet {
    bytes: Vec<u8>,
}

impl Sheet {
    /// Reads a sheet of any bytes whole, or refuses it with a number from 1 to 11 and the byte
    /// at which that was met.
    ///
    /// ```
    /// let flip_flop = [2, 1, 0, 1, 1, 8, 8, 0x0C, 0x10, 1, 1, 0, 0x23, 2, 2, 1];
    /// assert!(walbryts::Sheet::read(&flip_flop).is_ok());
    ///
    /// let refusal = walbryts::Sheet::read(&flip_flop[..9]).unwrap_err();
    /// assert_eq!(refusal.reason(), walbryts::Reason::EndsEarly);
    /// assert_eq!((refusal.number(), refusal.place()), (2, Some(9)));
    /// ```
    ///
    /// # Errors
    ///
    /// Numbers 1 to 11, with the place.
    pub fn read(bytes: &[u8]) -> Result<Sheet, Refusal> {
        let mut place = 0;
        // Safety: pointer and length are those of one slice, the place is a local's.
        let number = unsafe { raw::walbryts_read(bytes.as_ptr(), bytes.len(), &mut place) };
        match number {
            0 => Ok(Sheet { bytes: bytes.to_vec() }),
            _ => Err(Refusal::at(number, place)),
        }
    }

    /// The sheet's bytes.
    #[must_use]
    pub fn bytes(&self) -> &[u8] {
        &self.bytes
    }

    /// The listing of its pseudo-code.
    #[must_use]
    pub fn list(&self) -> String {
        list(&self.bytes)
    }

    /// How many inputs there are, the clock among them.
    #[must_use]
    pub fn inputs(&self) -> usize {
        self.bytes[0].into()
    }

    /// How many registers there are.
    #[must_use]
    pub fn registers(&self) -> usize {
        self.bytes[1].into()
    }

    /// How many wires there are.
    #[must_use]
    pub fn wires(&self) -> usize {
        self.bytes[2].into()
    }

    /// How many threads there are.
    #[must_use]
    pub fn threads(&self) -> usize {
        self.bytes[3].into()
    }

    /// The width of each variable.
    #[must_use]
    pub fn widths(&self) -> &[u8] {
        &self.bytes[4..4 + self.inputs() + self.registers() + self.wires()]
    }

    /// The variable that a register is.
    #[must_use]
    pub fn register(&self, register: usize) -> usize {
        self.inputs() + register
    }

    /// The variable that a wire is.
    #[must_use]
    pub fn wire(&self, wire: usize) -> usize {
        self.inputs() + self.registers() + wire
    }

    /// Pointer and length, as the library takes them.
    pub(crate) fn raw(&self) -> (*const u8, usize) {
        (self.bytes.as_ptr(), self.bytes.len())
    }
}

/// What the listing program prints for a sheet of any bytes: the listing, or the line
/// `refused N`.
///
/// ```
/// assert_eq!(walbryts::list(&[]), "refused 2\n");
/// ```
#[must_use]
pub fn list(bytes: &[u8]) -> String {
    let mut text = vec![0; TEXT];
    let mut length = 0;
    let (sheet, len, lent) = (bytes.as_ptr(), bytes.len(), text.as_mut_ptr());
    // Safety: pointer and length are those of one slice, the text has the length that the
    // library writes into, the length is a local's.
    let number = unsafe { raw::walbryts_list(sheet, len, lent, &mut length) };
    if number != 0 {
        return format!("refused {number}\n");
    }
    text.truncate(length);
    String::from_utf8(text).expect("a listing is plain text")
}
