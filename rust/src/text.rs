use std::thread;

use crate::raw;
use crate::refusal::Refusal;
use crate::sheet::Sheet;

/// A longer text is refused.
pub const MOST_TEXT: usize = 16_384;

/// The length of the buffer that a text's sheet is written into.
const LENT: usize = 8_192;

/// How many variables a sheet can have.
const VARIABLES: usize = 80;

/// A text may nest so deep that reading it takes more stack than a thread has: it is read on one
/// that has enough for every text (include/walbryts.h says how much that is).
const STACK: usize = 8 << 20;

fn deep<T: Send>(run: impl FnOnce() -> T + Send) -> T {
    thread::scope(|scope| {
        let builder = thread::Builder::new().stack_size(STACK);
        let thread = builder.spawn_scoped(scope, run).expect("a thread can be started");
        thread.join().expect("reading a text ends")
    })
}

impl Sheet {
    /// The sheet of one module in Verilog: ports by name; `input`, `reg` and `wire`; `assign` and
    /// `always`; the statements and operators that a sheet has, and `case`. Variables are numbered
    /// as they are declared, inputs first, then registers, then wires; [`names`] tells their names.
    ///
    /// ```
    /// let text = "module m (clk, d);
    ///     input clk; input [7:0] d; reg [7:0] q;
    ///     always @(posedge clk) q <= d;
    /// endmodule";
    /// let sheet = walbryts::Sheet::from_verilog(text.as_bytes())?;
    /// assert_eq!(sheet.list(), "threads 1\n0 0 wait 1 0\n0 1 later 2 v1\n0 2 go 0\n");
    /// assert_eq!(walbryts::names(text.as_bytes())?, ["clk", "d", "q"]);
    ///
    /// let refusal = walbryts::Sheet::from_verilog(b"module m (clk); output q;").unwrap_err();
    /// assert_eq!((refusal.number(), refusal.place()), (42, Some(16)));
    /// # Ok::<(), walbryts::Refusal>(())
    /// ```
    ///
    /// # Errors
    ///
    /// 41 for a text of over 16,384 bytes, 42 for one that isn't such a module, 43 for a name that
    /// is undeclared or declared twice and for a wire without exactly one `assign`, each with the
    /// byte of the text; then 1 to 11 for the sheet that it gives, with the byte of that sheet.
    pub fn from_verilog(text: &[u8]) -> Result<Sheet, Refusal> {
        let mut lent = vec![0; LENT];
        let (mut place, mut length) = (0, 0);
        let number = deep(|| {
            let (at, len, bytes) = (text.as_ptr(), text.len(), lent.as_mut_ptr());
            // Safety: pointers and lengths are those of one slice each, place and length are
            // locals'.
            unsafe { raw::walbryts_read_text(at, len, bytes, LENT, &mut place, &mut length) }
        });
        if number != 0 {
            return Err(Refusal::at(number, place));
        }
        lent.truncate(length);
        Sheet::read(&lent)
    }
}

/// The names of a text's variables, by number: inputs, then registers, then wires, each as
/// declared. Of more than 80 the first 80; a sheet has no more.
///
/// # Errors
///
/// 41 to 43, as [`Sheet::from_verilog`] has them. What the sheet's own numbers refuse isn't refused.
pub fn names(text: &[u8]) -> Result<Vec<String>, Refusal> {
    let (mut places, mut lengths) = ([0; VARIABLES], [0; VARIABLES]);
    let number = deep(|| {
        let (at, len) = (text.as_ptr(), text.len());
        // Safety: pointer and length are those of one slice, and both arrays have 80 entries.
        unsafe { raw::walbryts_names(at, len, places.as_mut_ptr(), lengths.as_mut_ptr()) }
    });
    Refusal::judge(number)?;
    let entries = places.iter().zip(lengths).take_while(|(_, length)| *length > 0);
    let name = |(place, length): (&u16, u16)| {
        let from = usize::from(*place);
        let bytes = &text[from..from + usize::from(length)];
        String::from_utf8(bytes.to_vec()).expect("a name is plain text")
    };
    Ok(entries.map(name).collect())
}
