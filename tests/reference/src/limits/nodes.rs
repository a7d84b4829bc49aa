//! Maps, and the fields of statements.

use super::{
    CLOCK, DATA, EXPR, HEAD, NARROW, Sample, THREAD, WIDE, WIRE_HEAD, accepted, bytes,
    condition, constant_bytes, cut, ends, judged, refused, thread, wire,
};
use crate::sheet::number;

pub fn expression_maps() -> Vec<Sample> {
    let good = [0x02, 0x0C, 0x04, 0x11, 0x31, 0x71];
    let tails: [&[u8]; 3] = [&[0x02, 0x01], &[0xFF, 0xFF], &[]];
    let mut samples = vec![
        accepted(wire(&[0x02, DATA])),
        accepted(wire(&constant_bytes(8, 5))),
        accepted(wire(&[0x04, 8])),
        accepted(wire(&[0x11, 1, 0x02, DATA])),
        accepted(wire(&[0x31, 6, 0x02, DATA, 0x02, WIDE])),
        accepted(wire(&[0x71, 10, 0x02, CLOCK, 0x02, DATA, 0x02, WIDE])),
        ends(WIRE_HEAD.to_vec()),
    ];
    for map in bytes() {
        let alone = [&WIRE_HEAD[..], &[map]].concat();
        samples.push(cut(good.contains(&map), number::MAP, EXPR, alone));
    }
    for map in bytes().filter(|map| !good.contains(map)) {
        for tail in tails {
            let node = [&[map], tail].concat();
            samples.push(refused(number::MAP, EXPR, wire(&node)));
            samples.push(refused(number::MAP, EXPR, condition(&node)));
            // As the second operand, at depth 2.
            let inner = [&[0x31, 3, 0x02, DATA], &node[..]].concat();
            samples.push(refused(number::MAP, EXPR + 4, condition(&inner)));
        }
    }
    samples
}

pub fn statement_maps() -> Vec<Sample> {
    let good = [0x00, 0x03, 0x23, 0x0C, 0x06, 0x0E, 0x46, 0x44, 0x10];
    let tails: [&[u8]; 3] = [&[0x02, 0x01, 0x00], &[0xFF, 0xFF], &[]];
    let mut samples = vec![
        accepted(thread(&[0x00])),
        accepted(thread(&[0x03, WIDE, 0x02, DATA])),
        accepted(thread(&[0x23, WIDE, 0x02, DATA])),
        accepted(thread(&[0x0C, 0x00, 0x00])),
        accepted(thread(&[0x06, 0x02, DATA, 0x00])),
        accepted(thread(&[0x0E, 0x02, DATA, 0x00, 0x00])),
        accepted(thread(&[0x46, 0x02, DATA, 0x00])),
        accepted(thread(&[0x44, 0x00])),
        accepted(thread(&[0x10, 1, 1, CLOCK])),
        ends(HEAD.to_vec()),
    ];
    for map in bytes().filter(|map| !good.contains(map)) {
        for tail in tails {
            samples.push(refused(number::MAP, THREAD, thread(&[&[map], tail].concat())));
            let second = thread(&[&[0x0C, 0x00, map], tail].concat());
            samples.push(refused(number::MAP, THREAD + 2, second));
        }
    }
    for map in good.into_iter().filter(|&map| map != 0x00) {
        samples.push(ends(thread(&[map])));
    }
    samples
}

pub fn targets() -> Vec<Sample> {
    let mut samples = Vec::new();
    for map in [0x03, 0x23] {
        for target in bytes() {
            let good = target == WIDE || target == NARROW;
            let value = if target == NARROW { CLOCK } else { DATA };
            let sheet = thread(&[map, target, 0x02, value]);
            samples.push(judged(good, number::TARGET, THREAD + 1, sheet));
            // The target is judged before the expression, also where there is none.
            samples.push(cut(good, number::TARGET, THREAD + 1, thread(&[map, target])));
            if !good {
                let bad_value = thread(&[map, target, 0xFF]);
                samples.push(refused(number::TARGET, THREAD + 1, bad_value));
            }
            // With a wire, number 4, which is no target.
            let mut with_wire = wire(&[0x04, 8]);
            with_wire.pop();
            with_wire.extend([map, target, 0x02, value]);
            samples.push(judged(good, number::TARGET, EXPR + 3, with_wire));
        }
    }
    samples
}

pub fn waits() -> Vec<Sample> {
    let mut samples = Vec::new();
    for count in bytes() {
        let terms = [1, CLOCK].repeat(count.into());
        let sheet = thread(&[&[0x10, count], &terms[..]].concat());
        let good = (1..=8).contains(&count);
        samples.push(judged(good, number::FIELD, THREAD + 1, sheet.clone()));
        if good {
            samples.extend((0..terms.len()).map(|n| ends(sheet[..THREAD + 2 + n].to_vec())));
        }
    }
    for edge in bytes() {
        for (variable, wide) in [(CLOCK, false), (DATA, true), (WIDE, true), (NARROW, false)] {
            let sheet = thread(&[0x10, 1, edge, variable]);
            samples.push(match edge {
                0..=2 if edge == 0 || !wide => accepted(sheet),
                0..=2 => refused(number::DISAGREE, THREAD, sheet),
                _ => refused(number::FIELD, THREAD + 2, sheet),
            });
        }
    }
    for position in 0..8 {
        for edge in [0, 1, 2, 3] {
            let mut terms = [2, CLOCK].repeat(8);
            terms[2 * position] = edge;
            terms[2 * position + 1] = DATA;
            let sheet = |terms: &[u8]| thread(&[&[0x10, 8], terms].concat());
            let place = THREAD + 2 + 2 * position;
            samples.push(match edge {
                0 => accepted(sheet(&terms)),
                3 => refused(number::FIELD, place, sheet(&terms)),
                _ => refused(number::DISAGREE, THREAD, sheet(&terms)),
            });
            // All terms are read before a width is judged.
            if position < 7 && edge < 3 {
                terms[15] = 4;
                samples.push(refused(number::FIELD, THREAD + 17, sheet(&terms)));
                samples.push(ends(sheet(&terms[..15])));
            }
        }
    }
    samples
}
