//! Sheets at each limit of document 01 and one past it, with the answer written
//! down beside each.

use crate::sheet::{FUNCTIONS, number};

mod depth;
mod fields;
mod functions;
mod lengths;
mod nodes;
mod typing;

pub use lengths::fullest;

/// A sheet and what reading it gives: number and place, both 0 if accepted.
pub struct Sample {
    pub sheet: Vec<u8>,
    pub number: u8,
    pub place: usize,
}

fn accepted(sheet: Vec<u8>) -> Sample {
    Sample { sheet, number: 0, place: 0 }
}

fn refused(number: u8, place: usize, sheet: Vec<u8>) -> Sample {
    Sample { sheet, number, place }
}

/// Ends early: the place is the sheet's length.
fn ends(sheet: Vec<u8>) -> Sample {
    refused(number::END, sheet.len(), sheet)
}

fn judged(good: bool, number: u8, place: usize, sheet: Vec<u8>) -> Sample {
    if good { accepted(sheet) } else { refused(number, place, sheet) }
}

/// A sheet cut off behind a byte that is good or is refused.
fn cut(good: bool, number: u8, place: usize, sheet: Vec<u8>) -> Sample {
    if good { ends(sheet) } else { refused(number, place, sheet) }
}

/// The samples by name; those with functions where such sheets are read.
pub fn groups() -> Vec<(&'static str, Vec<Sample>)> {
    let functions = if FUNCTIONS { with_functions() } else { Vec::new() };
    without_functions().into_iter().chain(functions).collect()
}

/// Those of document 02, [5].
pub fn with_functions() -> Vec<(&'static str, Vec<Sample>)> {
    vec![
        ("counts with functions", functions::heads()),
        ("functions' widths", functions::signatures()),
        ("functions' bodies", functions::bodies()),
        ("calls", functions::calls()),
        ("calls' arguments", functions::arguments()),
    ]
}

fn without_functions() -> Vec<(&'static str, Vec<Sample>)> {
    vec![
        ("counts", fields::counts()),
        ("widths", fields::widths()),
        ("expression maps", nodes::expression_maps()),
        ("statement maps", nodes::statement_maps()),
        ("operators", fields::operators()),
        ("variables", fields::variables()),
        ("constants", fields::constants()),
        ("expression depth", depth::expression_depth()),
        ("statement depth", depth::statement_depth()),
        ("width rules", typing::width_rules()),
        ("targets", nodes::targets()),
        ("waits", nodes::waits()),
        ("instructions", lengths::instructions()),
        ("sheet lengths", lengths::sheet_lengths()),
    ]
}

// ---- frames

/// Two inputs of widths 1 and 8, two registers of widths 8 and 1.
const HEAD: [u8; 8] = [2, 2, 0, 1, 1, 8, 8, 1];
/// The same and a wire of width 8.
const WIRE_HEAD: [u8; 9] = [2, 2, 1, 1, 1, 8, 8, 1, 8];
const CLOCK: u8 = 0;
const DATA: u8 = 1;
const WIDE: u8 = 2;
const NARROW: u8 = 3;

/// Where the statement begins in `thread`.
const THREAD: usize = 8;
/// Where the expression begins in `condition` and `wire`.
const EXPR: usize = 9;

/// A sheet whose one thread is these bytes.
fn thread(bytes: &[u8]) -> Vec<u8> {
    [&HEAD, bytes].concat()
}

/// A sheet whose one thread is an empty if on these bytes.
fn condition(bytes: &[u8]) -> Vec<u8> {
    [&HEAD[..], &[0x06], bytes, &[0x00]].concat()
}

/// A sheet whose one wire is these bytes.
fn wire(bytes: &[u8]) -> Vec<u8> {
    [&WIRE_HEAD, bytes, &[0x00]].concat()
}

fn constant_bytes(width: u8, value: u32) -> Vec<u8> {
    [&[0x0C, width], &value.to_le_bytes()[..]].concat()
}

fn bytes() -> impl Iterator<Item = u8> {
    0..=255
}
