//! Functions and calls (document 02, [5]).

use super::{Sample, accepted, bytes, condition, cut, ends, judged, refused};
use crate::sheet::{EXPR_DEPTH, STMT_DEPTH, number};

/// Two inputs of widths 1 and 8, a register of width 8, a wire of width 8, a thread.
const COUNTS: [u8; 4] = [0x82, 1, 1, 1];
const WIDTHS: [u8; 4] = [1, 8, 8, 8];
/// The place of the first function.
const FIRST: usize = 9;
/// `result = parameter`, both of width 8.
const SAME: [u8; 7] = [1, 8, 8, 0x03, 1, 0x02, 0];
/// The place of its body.
const BODY: usize = FIRST + 3;
const WIRE: [u8; 2] = [0x02, 1];
const THREAD: [u8; 1] = [0x00];

/// A sheet of these functions, with this expression for its wire.
fn sheet(functions: &[&[u8]], wire: &[u8]) -> Vec<u8> {
    let count = [functions.len() as u8];
    [&COUNTS, &count[..], &WIDTHS, &functions.concat(), wire, &THREAD].concat()
}

/// One function, `SAME` with another body.
fn body(bytes: &[u8]) -> Vec<u8> {
    sheet(&[&[&SAME[..3], bytes].concat()], &WIRE)
}

pub fn heads() -> Vec<Sample> {
    let mut samples = Vec::new();
    for first in 128..=255 {
        let good = (129..=144).contains(&first);
        let widths = vec![1; usize::from(first & 127) + 2];
        let function = [1, 1, 1, 0x00];
        let rest = [&[1, 1, 1, 1][..], &widths, &function, &[0x02, 0, 0x00]].concat();
        samples.push(judged(good, number::COUNT, 0, [&[first], &rest[..]].concat()));
        samples.push(cut(good, number::COUNT, 0, vec![first]));
    }
    for count in bytes() {
        let good = (1..=8).contains(&count);
        let functions = vec![&SAME[..]; count.into()];
        samples.push(judged(good, number::COUNT, 4, sheet(&functions, &WIRE)));
        samples.push(cut(good, number::COUNT, 4, [&COUNTS[..], &[count]].concat()));
    }
    samples
}

pub fn signatures() -> Vec<Sample> {
    let mut samples = Vec::new();
    for count in bytes() {
        let good = (1..=4).contains(&count);
        let widths = vec![8; usize::from(count) + 1];
        let function = [&[count], &widths[..], &[0x00]].concat();
        let whole = sheet(&[&function], &WIRE);
        samples.push(cut(good, number::COUNT, FIRST, whole[..=FIRST].to_vec()));
        samples.push(judged(good, number::COUNT, FIRST, whole));
    }
    for width in bytes() {
        let good = (1..=32).contains(&width);
        for index in 0..3 {
            let mut function = [2, 8, 8, 8, 0x00];
            function[1 + index] = width;
            let (place, whole) = (FIRST + 1 + index, sheet(&[&function], &WIRE));
            samples.push(cut(good, number::WIDTH, place, whole[..=place].to_vec()));
            samples.push(judged(good, number::WIDTH, place, whole));
        }
    }
    samples
}

/// The number of a map in a body.
fn map_number(map: u8) -> u8 {
    match map {
        0x00 | 0x03 | 0x0C | 0x06 | 0x0E => 0,
        0x23 | 0x46 | 0x44 | 0x10 => number::BODY,
        _ => number::MAP,
    }
}

pub fn bodies() -> Vec<Sample> {
    let mut samples = vec![
        accepted(body(&[0x00])),
        accepted(body(&[0x03, 1, 0x02, 1])),
        accepted(body(&[0x0C, 0x00, 0x00])),
        accepted(body(&[0x06, 0x02, 0, 0x00])),
        accepted(body(&[0x0E, 0x02, 0, 0x00, 0x00])),
    ];
    for map in bytes() {
        let number = map_number(map);
        if number != 0 {
            samples.push(refused(number, BODY, body(&[map])));
            samples.push(refused(number, BODY + 2, body(&[0x0C, 0x00, map])));
            samples.push(refused(number, BODY + 4, body(&[0x0E, 0x02, 0, 0x00, map])));
        }
        // One level too deep it is 7 whatever it is.
        let deep = [&[0x0C; STMT_DEPTH][..], &[map]].concat();
        samples.push(refused(number::DEPTH, BODY + STMT_DEPTH, body(&deep)));
    }
    let nested = |depth: usize| {
        let ifs = [0x06, 0x02, 0].repeat(depth - 1);
        body(&[&ifs[..], &[0x00]].concat())
    };
    samples.push(accepted(nested(STMT_DEPTH)));
    samples.push(refused(number::DEPTH, BODY + 3 * STMT_DEPTH, nested(STMT_DEPTH + 1)));
    for byte in bytes() {
        let target = body(&[0x03, byte, 0x02, 0]);
        samples.push(judged(byte == 1, number::TARGET, BODY + 1, target));
        let variable = body(&[0x03, 1, 0x02, byte]);
        samples.push(judged(byte < 2, number::FIELD, BODY + 3, variable));
    }
    // Widths disagree: at the assignment's map.
    samples.push(refused(number::DISAGREE, BODY, body(&[0x03, 1, 0x04, 7])));
    // Threads have at most 256 instructions; a body may have more.
    let long = (0..9).fold(vec![0x03, 1, 0x02, 0], |s, _| [&[0x0C], &s[..], &s].concat());
    samples.push(accepted(body(&long)));
    samples
}

pub fn calls() -> Vec<Sample> {
    let three = [&SAME[..]; 3];
    let wire = FIRST + 3 * SAME.len();
    let mut samples = Vec::new();
    for n in bytes() {
        let whole = sheet(&three, &[0x80, n, 0x02, 1]);
        samples.push(cut(n < 3, number::FIELD, wire + 1, whole[..wire + 2].to_vec()));
        samples.push(judged(n < 3, number::FIELD, wire + 1, whole));
        for k in 0..3 {
            let calling = [&SAME[..3], &[0x03, 1, 0x80, n, 0x02, 0]].concat();
            let mut functions = three;
            functions[k] = &calling;
            let number = match usize::from(n) {
                n if n < k => 0,
                n if n < 3 => number::LATER_FUNCTION,
                _ => number::FIELD,
            };
            let place = FIRST + SAME.len() * k + 6;
            let whole = sheet(&functions, &WIRE);
            samples.push(cut(number == 0, number, place, whole[..=place].to_vec()));
            samples.push(judged(number == 0, number, place, whole));
        }
    }
    // Arguments are one deeper than their call, in a wire and in a body.
    let nested =
        |depth: usize, leaf: u8| [&[0x80, 0].repeat(depth - 1)[..], &[0x02, leaf]].concat();
    let past = 2 * EXPR_DEPTH;
    let wired = |depth| sheet(&[&SAME], &nested(depth, 1));
    samples.push(accepted(wired(EXPR_DEPTH)));
    samples.push(refused(number::DEPTH, BODY + 4 + past, wired(EXPR_DEPTH + 1)));
    let bodied = |depth| {
        let calling = [&SAME[..3], &[0x03, 1], &nested(depth, 0)].concat();
        sheet(&[&SAME, &calling], &WIRE)
    };
    samples.push(accepted(bodied(EXPR_DEPTH)));
    let place = FIRST + SAME.len() + 5 + past;
    samples.push(refused(number::DEPTH, place, bodied(EXPR_DEPTH + 1)));
    samples
}

/// A function of an 8-bit and a 1-bit parameter, with a 4-bit result.
pub fn arguments() -> Vec<Sample> {
    let function = [2, 8, 1, 4, 0x00];
    let wire = FIRST + function.len();
    let called = |call: &[u8]| {
        let mut whole = sheet(&[&function], &[&[0x31, 8][..], call, &[0x04, 4]].concat());
        whole[8] = 1;
        whole
    };
    let mut samples = Vec::new();
    for first in 1..=9 {
        for second in 1..=9 {
            let whole = called(&[0x80, 0, 0x04, first, 0x04, second]);
            let good = (first, second) == (8, 1);
            samples.push(judged(good, number::DISAGREE, wire + 2, whole));
        }
    }
    // The result's width is the function's.
    for width in 1..=9 {
        let mut whole = sheet(&[&function], &[0x80, 0, 0x04, 8, 0x04, 1]);
        whole[8] = width;
        samples.push(judged(width == 4, number::DISAGREE, wire, whole));
    }
    // An argument missing: what follows is read in its place.
    let whole = called(&[0x80, 0, 0x04, 8, 0x04, 1]);
    samples.extend((0..whole.len()).map(|length| ends(whole[..length].to_vec())));
    // In a sheet without functions the map is none.
    samples.push(refused(number::MAP, super::EXPR, condition(&[0x80, 0, 0x02, 1])));
    samples
}
