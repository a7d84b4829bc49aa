//! Counts, widths, operators, variables and constants.

use super::{
    CLOCK, DATA, EXPR, HEAD, Sample, THREAD, WIDE, accepted, bytes, condition, constant_bytes,
    cut, ends, judged, refused, thread, wire,
};
use crate::encode::encode;
use crate::module::{Expr, Module, Stmt};
use crate::sheet::{FUNCTIONS, WITH_FUNCTIONS, number};

/// A module of these counts: wires unknown, threads empty.
fn counted(inputs: u8, registers: u8, wires: u8, threads: u8) -> Vec<u8> {
    let mut widths = vec![8; usize::from(inputs) + usize::from(registers) + usize::from(wires)];
    widths[0] = 1;
    encode(&Module {
        inputs,
        registers,
        widths,
        functions: Vec::new(),
        wires: vec![Expr::Unknown { width: 8 }; wires.into()],
        threads: vec![Stmt::Empty; threads.into()],
    })
}

pub fn counts() -> Vec<Sample> {
    let range = [1..=16, 1..=32, 0..=32, 1..=8];
    let mut samples = vec![accepted(counted(1, 1, 0, 1)), accepted(counted(16, 32, 32, 8))];
    for (field, range) in range.iter().enumerate() {
        for n in bytes() {
            if FUNCTIONS && field == 0 && n >= WITH_FUNCTIONS {
                continue;
            }
            let mut counts = [2, 2, 2, 2];
            counts[field] = n;
            let [inputs, registers, wires, threads] = counts;
            let sheet = counted(inputs, registers, wires, threads);
            let good = range.contains(&n);
            samples.push(judged(good, number::COUNT, field, sheet));
            // A count is judged before the next byte is asked for.
            samples.push(cut(good, number::COUNT, field, counts[..=field].to_vec()));
        }
    }
    samples
}

/// Each width byte of a sheet that uses no variable.
pub fn widths() -> Vec<Sample> {
    let mut samples = Vec::new();
    for width in bytes() {
        let good = (1..=32).contains(&width);
        for variable in 0..4 {
            let mut sheet = thread(&[0x00]);
            sheet[4 + variable] = width;
            let good = if variable == 0 { width == 1 } else { good };
            samples.push(judged(good, number::WIDTH, 4 + variable, sheet.clone()));
            sheet.truncate(5 + variable);
            samples.push(cut(good, number::WIDTH, 4 + variable, sheet));
        }
        let mut sheet = wire(&[0x04, width]);
        sheet[8] = width;
        samples.push(judged(good, number::WIDTH, 8, sheet));
    }
    samples
}

/// Every operator byte behind each operator map.
pub fn operators() -> Vec<Sample> {
    let nodes: [(&[u8], std::ops::RangeInclusive<u8>); 3] = [
        (&[0x11, 0, 0x02, DATA], 1..=2),
        (&[0x31, 0, 0x02, DATA, 0x02, WIDE], 3..=9),
        (&[0x71, 0, 0x02, CLOCK, 0x02, DATA, 0x02, WIDE], 10..=10),
    ];
    let mut samples = Vec::new();
    for (node, range) in nodes {
        for operator in bytes() {
            let mut node = node.to_vec();
            node[1] = operator;
            let good = range.contains(&operator);
            samples.push(judged(good, number::FIELD, EXPR + 1, condition(&node)));
            // The operator is judged before its operands.
            node[2] = 0xFF;
            let (number, place) =
                if good { (number::MAP, EXPR + 2) } else { (number::FIELD, EXPR + 1) };
            samples.push(refused(number, place, condition(&node)));
        }
    }
    samples
}

pub fn variables() -> Vec<Sample> {
    let mut samples = Vec::new();
    for variable in bytes() {
        let good = variable < 4;
        samples.push(judged(good, number::FIELD, EXPR + 1, condition(&[0x02, variable])));
        samples.push(judged(good, number::FIELD, THREAD + 3, thread(&[0x10, 1, 0, variable])));
        let second = thread(&[0x10, 2, 0, DATA, 0, variable]);
        samples.push(judged(good, number::FIELD, THREAD + 5, second));
        // In the head with a wire, 4 names that wire.
        if !good && variable != 4 {
            samples.push(refused(number::FIELD, EXPR + 1, wire(&[0x02, variable])));
        }
    }
    samples.push(accepted(wire(&[0x02, 4])));
    samples
}

pub fn constants() -> Vec<Sample> {
    let mut samples = Vec::new();
    for width in 1..=32 {
        let most = ((1u64 << width) - 1) as u32;
        for value in [0, 1, most - most / 2, most] {
            samples.push(accepted(condition(&constant_bytes(width, value))));
        }
        // All four bytes are asked for before the value is judged.
        for length in 2..6 {
            let part = &constant_bytes(width, u32::MAX)[..length];
            samples.push(ends([&HEAD[..], &[0x06], part].concat()));
        }
    }
    for width in 1..32 {
        for value in [1 << width, 1 << width | 1 << 31, u32::MAX] {
            let sheet = condition(&constant_bytes(width, value));
            samples.push(refused(number::FIELD, EXPR + 2, sheet));
        }
    }
    for width in bytes() {
        let good = (1..=32).contains(&width);
        let known = condition(&constant_bytes(width, 0));
        samples.push(judged(good, number::FIELD, EXPR + 1, known));
        samples.push(judged(good, number::FIELD, EXPR + 1, condition(&[0x04, width])));
        let no_value = [&HEAD[..], &[0x06, 0x0C, width]].concat();
        samples.push(cut(good, number::FIELD, EXPR + 1, no_value));
    }
    samples
}
