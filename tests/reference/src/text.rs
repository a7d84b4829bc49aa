//! Verilog text instead of sheets: document 02's request [1], written from the paper and from
//! IEEE 1364-2005's clauses 3, 5 and 9 and Annex A, cut to the forms that the request names.

pub mod names;
pub mod parse;
pub mod random;
pub mod scan;
pub mod tree;
pub mod vectors;
pub mod write;

use crate::sheet;
use crate::text::tree::{Kind, Source};

pub const MOST_TEXT: usize = 16_384;
pub const LENT: usize = sheet::MOST_BYTES;
/// The most variables of a sheet.
pub const VARIABLES: usize = 80;

/// The numbers that the request adds, and 23, which it shares.
pub mod number {
    pub const LENT: u8 = 23;
    pub const TOO_LONG: u8 = 41;
    pub const NOT_DERIVED: u8 = 42;
    pub const NAMES: u8 = 43;
}

/// Where a text is refused, the place is a byte of the text, or for the sheet's own numbers a
/// byte of its sheet; the length is that of an accepted sheet.
#[derive(Clone, Copy, Debug, PartialEq, Eq)]
pub struct Answer {
    pub number: u8,
    pub place: usize,
    pub length: usize,
}

fn refused(number: u8, place: usize) -> Answer {
    Answer { number, place, length: 0 }
}

/// The text's sheet at the front of the lent bytes, zeros behind it. A refusal leaves them.
pub fn read_text(text: &[u8], lent: &mut [u8]) -> Answer {
    if lent.len() != LENT {
        return refused(number::LENT, 0);
    }
    match sheet_of(text) {
        Ok(sheet) => {
            lent.fill(0);
            lent[..sheet.len()].copy_from_slice(&sheet);
            Answer { number: 0, place: 0, length: sheet.len() }
        }
        Err(answer) => answer,
    }
}

/// For each variable number the place in the text of the name that declares it and its length, 0
/// where there is none; refused, both stay.
#[derive(Clone, Debug, PartialEq, Eq)]
pub struct Labels {
    pub number: u8,
    pub places: [u16; VARIABLES],
    pub lengths: [u16; VARIABLES],
}

pub fn labels(text: &[u8], places: [u16; VARIABLES], lengths: [u16; VARIABLES]) -> Labels {
    let source = match source_of(text) {
        Ok(source) => source,
        Err(answer) => return Labels { number: answer.number, places, lengths },
    };
    let mut labels = Labels { number: 0, places: [0; VARIABLES], lengths: [0; VARIABLES] };
    let variables = Kind::ALL.into_iter().flat_map(|kind| source.of(kind));
    for (number, variable) in variables.take(VARIABLES).enumerate() {
        labels.places[number] = variable.name.place as u16;
        labels.lengths[number] = variable.name.spelled.len() as u16;
    }
    labels
}

fn source_of(text: &[u8]) -> Result<Source<'_>, Answer> {
    if text.len() > MOST_TEXT {
        return Err(refused(number::TOO_LONG, MOST_TEXT));
    }
    let tokens = scan::tokens(text);
    let source = parse::module(&tokens, text.len())
        .map_err(|place| refused(number::NOT_DERIVED, place))?;
    if let Some(place) = names::fault(&source, &tokens) {
        return Err(refused(number::NAMES, place));
    }
    Ok(source)
}

fn sheet_of(text: &[u8]) -> Result<Vec<u8>, Answer> {
    let sheet = write::sheet(&source_of(text)?);
    match sheet::read(&sheet) {
        Ok(_) => Ok(sheet),
        Err(refusal) => Err(refused(refusal.number, refusal.place)),
    }
}

/// Runs on a thread with so much stack: a text may nest some thousand deep.
pub fn deep<T: Send + 'static>(stack: usize, run: impl FnOnce() -> T + Send + 'static) -> T {
    let thread = std::thread::Builder::new().stack_size(stack).spawn(run).expect("a thread");
    thread.join().expect("the thread ends")
}

#[cfg(test)]
mod tests;
