//! Widths that agree and disagree.

use super::{
    CLOCK, DATA, EXPR, HEAD, NARROW, Sample, THREAD, WIDE, WIRE_HEAD, accepted, condition,
    constant_bytes, judged, refused, thread, wire,
};
use crate::sheet::number;

pub fn width_rules() -> Vec<Sample> {
    [operands(), results(), stores(), conditions(), first_met()].into_iter().flatten().collect()
}

/// Operands of unequal and of equal widths.
const PAIRS: [(u8, u8); 4] = [(CLOCK, DATA), (DATA, CLOCK), (CLOCK, NARROW), (DATA, WIDE)];

fn equally_wide(left: u8, right: u8) -> bool {
    HEAD[4 + usize::from(left)] == HEAD[4 + usize::from(right)]
}

/// Operands of 3 to 9 have equal widths, as have the last two of 10.
fn operands() -> Vec<Sample> {
    let mut samples = Vec::new();
    for (left, right) in PAIRS {
        let good = equally_wide(left, right);
        for operator in 3..=9 {
            let node = [0x31, operator, 0x02, left, 0x02, right];
            samples.push(judged(good, number::DISAGREE, EXPR, condition(&node)));
            let inner = condition(&[&[0x11, 1], &node[..]].concat());
            samples.push(judged(good, number::DISAGREE, EXPR + 2, inner));
        }
        for first in [CLOCK, DATA] {
            let node = [0x71, 10, 0x02, first, 0x02, left, 0x02, right];
            samples.push(judged(good, number::DISAGREE, EXPR, condition(&node)));
        }
    }
    samples
}

/// Operators 2, 8 and 9 give width 1, the others their operands' width.
fn results() -> Vec<Sample> {
    let mut samples = Vec::new();
    for operator in 1..=9 {
        let one_bit = [2, 8, 9].contains(&operator);
        let value = match operator {
            1 | 2 => vec![0x11, operator, 0x02, DATA],
            _ => vec![0x31, operator, 0x02, DATA, 0x02, WIDE],
        };
        for (target, good) in [(WIDE, !one_bit), (NARROW, one_bit)] {
            let sheet = thread(&[&[0x03, target], &value[..]].concat());
            samples.push(judged(good, number::DISAGREE, THREAD, sheet));
        }
        samples.push(judged(!one_bit, number::DISAGREE, EXPR, wire(&value)));
    }
    samples
}

/// A target or wire has its expression's width.
fn stores() -> Vec<Sample> {
    let mut samples = Vec::new();
    for width in 1..=32 {
        for value in [constant_bytes(width, 1), vec![0x04, width]] {
            samples.push(judged(width == 8, number::DISAGREE, EXPR, wire(&value)));
            for map in [0x03, 0x23] {
                let sheet = thread(&[&[map, WIDE], &value[..]].concat());
                samples.push(judged(width == 8, number::DISAGREE, THREAD, sheet));
            }
        }
    }
    samples
}

/// A condition may have any width, as may the operand of `!`.
fn conditions() -> Vec<Sample> {
    let sheets = |width| {
        [
            thread(&[0x06, 0x04, width, 0x00]),
            thread(&[0x0E, 0x04, width, 0x00, 0x00]),
            thread(&[0x46, 0x04, width, 0x00]),
            condition(&[0x11, 2, 0x04, width]),
        ]
    };
    (1..=32).flat_map(sheets).map(accepted).collect()
}

/// Widths are judged at the node's end, before what follows it.
fn first_met() -> Vec<Sample> {
    let operand = [0x31, 3, 0x31, 3, 0x02, CLOCK, 0x02, DATA, 0xFF];
    let assignment = [0x0C, 0x03, WIDE, 0x02, CLOCK, 0xFF];
    let wire_and_thread = [&WIRE_HEAD[..], &[0x02, CLOCK, 0xFF]].concat();
    vec![
        refused(number::DISAGREE, EXPR + 2, condition(&operand)),
        refused(number::DISAGREE, THREAD + 1, thread(&assignment)),
        refused(number::DISAGREE, EXPR, wire_and_thread),
        // The other way round: what stands inside the node comes first.
        refused(number::MAP, EXPR + 4, condition(&[0x31, 3, 0x02, CLOCK, 0xFF])),
        refused(
            number::FIELD,
            EXPR + 7,
            condition(&[0x71, 10, 0x02, CLOCK, 0x02, DATA, 0x02, 9]),
        ),
    ]
}
