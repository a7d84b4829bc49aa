//! The proved library, called through its C interface.

/// The length of the text that the listing is written into. No listing is longer:
/// at most 2,048 lines have at most 16 bytes besides their expression or terms, and
/// those have at most 5 bytes for every 2 of the sheet.
pub const TEXT: usize = 65_536;

/// The bytes of a saved state, with the one that names its form.
pub const SAVED: usize = 1_025;

use crate::state::USERS;
use crate::text::{Answer, Labels, VARIABLES};

mod calls;
mod planes;
pub mod plans;

pub use calls::Library;
pub use planes::{Inputs, Planes, rows_of_16};

unsafe extern "C" {
    /// The sheet of a text into 8,192 lent bytes: the number, whose place is stored, and the
    /// sheet's length.
    fn walbryts_read_text(
        text: *const u8,
        len: usize,
        lent: *mut u8,
        lent_len: usize,
        place: *mut usize,
        length: *mut usize,
    ) -> u8;

    /// Where the variables of a text are declared, into two tables of 80 entries; the number.
    fn walbryts_names(text: *const u8, len: usize, places: *mut u16, lengths: *mut u16) -> u8;

    /// The number of the refusal, whose place is stored; both 0 where the sheet is accepted.
    fn walbryts_read(sheet: *const u8, len: usize, place: *mut usize) -> u8;

    /// Writes the listing at the front of the 65,536 bytes of text and stores its length; the
    /// number of a refusal, where the text stays.
    fn walbryts_list(sheet: *const u8, len: usize, text: *mut u8, length: *mut usize) -> u8;

    /// A saved state of any form into the bytes of one, of a sheet, with these allowances where it has
    /// one count: 1 to 11; 31 where it is none or that count is above the first of them.
    fn walbryts_bring_over(
        sheet: *const u8,
        sheet_len: usize,
        old: *const u8,
        len: usize,
        allowances: *const u32,
        state: *mut u8,
    ) -> u8;

    /// The calls on a saved state, which becomes the one that the call gives back. Each
    /// returns its number, 31 where the bytes are no saved state. The start has four allowances.
    fn walbryts_start(
        sheet: *const u8,
        len: usize,
        allowances: *const u32,
        state: *mut u8,
    ) -> u8;
    fn walbryts_choose(
        sheet: *const u8,
        len: usize,
        state: *mut u8,
        user: u8,
        choice: u8,
    ) -> u8;
    fn walbryts_run(
        sheet: *const u8,
        len: usize,
        state: *mut u8,
        user: u8,
        choices: *const u8,
        choices_len: usize,
        accepted: *mut usize,
    ) -> u8;
    /// 16 numbers and 16 marks; the count may be another.
    fn walbryts_instant(
        sheet: *const u8,
        len: usize,
        state: *mut u8,
        count: u8,
        value: *const u32,
        unknown: *const u32,
    ) -> u8;
    fn walbryts_run_plain(
        sheet: *const u8,
        len: usize,
        state: *mut u8,
        user: u8,
        limit: u16,
        accepted: *mut u16,
        word: *mut u8,
    ) -> u8;
    fn walbryts_run_cycles(
        sheet: *const u8,
        len: usize,
        state: *mut u8,
        user: u8,
        value: *const u32,
        values: usize,
        unknown: *const u32,
        unknowns: usize,
        phases: *mut usize,
        running: *mut bool,
    ) -> u8;

    /// Fills the lent words where the sheet is extractable and there are 16,384 and 1,056.
    fn walbryts_extract(
        sheet: *const u8,
        sheet_len: usize,
        nodes: *mut u16,
        nodes_len: usize,
        rows: *mut u16,
        rows_len: usize,
    ) -> u8;

    /// A cycle run: 32 registers and 8 places, which become those that it gives back; 16 inputs,
    /// from input 1 up; 32 wires, which are given only. Refused, all of them stay.
    fn walbryts_cycle(
        sheet: *const u8,
        sheet_len: usize,
        nodes: *const u16,
        nodes_len: usize,
        rows: *const u16,
        rows_len: usize,
        value: *mut u32,
        unknown: *mut u32,
        places: *mut u8,
        count: u8,
        inputs: *const u32,
        inputs_unknown: *const u32,
        wire: *mut u32,
        unsure: *mut u32,
    ) -> u8;

    /// Cycle runs one after the other, one for each 16 inputs, the first of which is the clock's
    /// and isn't looked at. `cycles` takes how many were accepted; the arrays become what the
    /// last of these gave, and where there is none they stay.
    fn walbryts_cycles(
        sheet: *const u8,
        sheet_len: usize,
        nodes: *const u16,
        nodes_len: usize,
        rows: *const u16,
        rows_len: usize,
        value: *mut u32,
        unknown: *mut u32,
        places: *mut u8,
        inputs: *const u32,
        inputs_len: usize,
        inputs_unknown: *const u32,
        unknowns: usize,
        cycles: *mut usize,
        wire: *mut u32,
        unsure: *mut u32,
    ) -> u8;
}

/// A text's sheet into the lent bytes.
pub fn read_text(text: &[u8], lent: &mut [u8]) -> Answer {
    let (mut place, mut length) = (usize::MAX, usize::MAX);
    let (at, len, bytes, room) = (text.as_ptr(), text.len(), lent.as_mut_ptr(), lent.len());
    // Safety: the pointers and the lengths are those of two slices, place and length are locals'.
    let number = unsafe { walbryts_read_text(at, len, bytes, room, &mut place, &mut length) };
    Answer { number, place, length }
}

/// Where a text's variables are declared, from these tables on.
pub fn labels(text: &[u8], places: [u16; VARIABLES], lengths: [u16; VARIABLES]) -> Labels {
    let mut labels = Labels { number: 0, places, lengths };
    let (places, lengths) = (labels.places.as_mut_ptr(), labels.lengths.as_mut_ptr());
    // Safety: as above, and both tables have 80 entries.
    labels.number = unsafe { walbryts_names(text.as_ptr(), text.len(), places, lengths) };
    labels
}

/// The number and place that the library gives, both 0 where it accepts.
pub fn read(sheet: &[u8]) -> (u8, usize) {
    let mut place = usize::MAX;
    // Safety: the pointer and the length are those of one slice, the place is a local's.
    let number = unsafe { walbryts_read(sheet.as_ptr(), sheet.len(), &mut place) };
    (number, place)
}

/// Lists the sheet into the text; the number, and the length of what was written.
pub fn list(sheet: &[u8], text: &mut [u8; TEXT]) -> (u8, usize) {
    let mut length = usize::MAX;
    let (at, len, text) = (sheet.as_ptr(), sheet.len(), text.as_mut_ptr());
    // Safety: as above, and the text has the length that the library writes into.
    let number = unsafe { walbryts_list(at, len, text, &mut length) };
    (number, length)
}

/// A saved state of any form, brought over; the number.
pub fn bring_over(
    sheet: &[u8],
    old: &[u8],
    allowances: [u32; USERS],
    state: &mut [u8; SAVED],
) -> u8 {
    let (at, len) = (sheet.as_ptr(), sheet.len());
    let (old, old_len, state) = (old.as_ptr(), old.len(), state.as_mut_ptr());
    // Safety: as above, the state has the length of a saved one, and there are four allowances.
    unsafe { walbryts_bring_over(at, len, old, old_len, allowances.as_ptr(), state) }
}

/// The start state, saved, and the number.
pub fn start(sheet: &[u8], allowances: [u32; USERS], state: &mut [u8; SAVED]) -> u8 {
    let (at, len, state) = (sheet.as_ptr(), sheet.len(), state.as_mut_ptr());
    // Safety: as above, the state has the length of a saved one, and there are four allowances.
    unsafe { walbryts_start(at, len, allowances.as_ptr(), state) }
}

/// One choice of a user on a saved state; the number.
pub fn choose(sheet: &[u8], state: &mut [u8; SAVED], user: u8, choice: u8) -> u8 {
    // Safety: as above.
    unsafe { walbryts_choose(sheet.as_ptr(), sheet.len(), state.as_mut_ptr(), user, choice) }
}

/// A run over choices on a saved state; how many were accepted, and the number.
pub fn run(sheet: &[u8], state: &mut [u8; SAVED], user: u8, choices: &[u8]) -> (usize, u8) {
    let mut accepted = 0;
    let (at, len, state) = (sheet.as_ptr(), sheet.len(), state.as_mut_ptr());
    let (list, count) = (choices.as_ptr(), choices.len());
    // Safety: as above, with the pointer and the length of each slice.
    let number = unsafe { walbryts_run(at, len, state, user, list, count, &mut accepted) };
    (accepted, number)
}

/// An instant on a saved state; the number.
pub fn instant(sheet: &[u8], state: &mut [u8; SAVED], inputs: &Inputs) -> u8 {
    let Inputs { count, value, unknown } = inputs;
    let (at, len, state) = (sheet.as_ptr(), sheet.len(), state.as_mut_ptr());
    // Safety: as above, and there are 16 numbers and marks.
    unsafe { walbryts_instant(at, len, state, *count, value.as_ptr(), unknown.as_ptr()) }
}

/// The plain run on a saved state; how many choices were accepted, the number, and the word:
/// 0 quiet, 1 spent, 2 stopped.
pub fn run_plain(sheet: &[u8], state: &mut [u8; SAVED], user: u8, limit: u16) -> (u16, u8, u8) {
    let (mut accepted, mut word) = (0, 0);
    let (at, len, state) = (sheet.as_ptr(), sheet.len(), state.as_mut_ptr());
    // Safety: as above; the count and the word are locals'.
    let number =
        unsafe { walbryts_run_plain(at, len, state, user, limit, &mut accepted, &mut word) };
    (accepted, number, word)
}

/// Rows of 16 inputs on a saved state; how many instants were done, and the number.
pub fn run_cycles(
    sheet: &[u8],
    state: &mut [u8; SAVED],
    user: u8,
    value: &[u32],
    unknown: &[u32],
) -> (usize, u8) {
    let (mut phases, mut running) = (0, false);
    // Safety: as above, with the pointer and the length of each slice.
    let number = unsafe {
        walbryts_run_cycles(
            sheet.as_ptr(),
            sheet.len(),
            state.as_mut_ptr(),
            user,
            value.as_ptr(),
            value.len(),
            unknown.as_ptr(),
            unknown.len(),
            &mut phases,
            &mut running,
        )
    };
    (phases, number)
}

/// Extraction into the lent words; the number.
pub fn extract(sheet: &[u8], nodes: &mut [u16], rows: &mut [u16]) -> u8 {
    let (at, len) = (sheet.as_ptr(), sheet.len());
    let (nodes_len, rows_len) = (nodes.len(), rows.len());
    let (nodes, rows) = (nodes.as_mut_ptr(), rows.as_mut_ptr());
    // Safety: as above.
    unsafe { walbryts_extract(at, len, nodes, nodes_len, rows, rows_len) }
}

/// A cycle run on lent words; the number.
pub fn cycle(
    sheet: &[u8],
    nodes: &[u16],
    rows: &[u16],
    planes: &mut Planes,
    inputs: &Inputs,
) -> u8 {
    // Safety: as above, and each plane has its length.
    unsafe {
        walbryts_cycle(
            sheet.as_ptr(),
            sheet.len(),
            nodes.as_ptr(),
            nodes.len(),
            rows.as_ptr(),
            rows.len(),
            planes.value.as_mut_ptr(),
            planes.unknown.as_mut_ptr(),
            planes.places.as_mut_ptr(),
            inputs.count,
            inputs.value.as_ptr(),
            inputs.unknown.as_ptr(),
            planes.wire.as_mut_ptr(),
            planes.unsure.as_mut_ptr(),
        )
    }
}

/// Cycle runs over rows of 16 inputs; how many were accepted, and the number.
pub fn cycles(
    sheet: &[u8],
    nodes: &[u16],
    rows: &[u16],
    planes: &mut Planes,
    value: &[u32],
    unknown: &[u32],
) -> (usize, u8) {
    let mut cycles = usize::MAX;
    // Safety: as above, with the pointer and the length of each slice.
    let number = unsafe {
        walbryts_cycles(
            sheet.as_ptr(),
            sheet.len(),
            nodes.as_ptr(),
            nodes.len(),
            rows.as_ptr(),
            rows.len(),
            planes.value.as_mut_ptr(),
            planes.unknown.as_mut_ptr(),
            planes.places.as_mut_ptr(),
            value.as_ptr(),
            value.len(),
            unknown.as_ptr(),
            unknown.len(),
            &mut cycles,
            planes.wire.as_mut_ptr(),
            planes.unsure.as_mut_ptr(),
        )
    };
    (cycles, number)
}
