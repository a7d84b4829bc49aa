//! Damaged sheets, and sheets of random bytes.

use crate::functions::With;
use crate::random::Random;
use crate::sheet::WITH_FUNCTIONS;

/// Bytes that mean something in some place of a sheet.
const TELLING: [u8; 32] = [
    0x00, 0x01, 0x02, 0x03, 0x04, 0x05, 0x06, 0x07, 0x08, 0x09, 0x0A, 0x0B, 0x0C, 0x0E, 0x10,
    0x11, 0x20, 0x21, 0x23, 0x31, 0x32, 0x44, 0x46, 0x50, 0x71, 0x7F, 0x80, 0xFE, 0xFF, 0x0D,
    0x1F, 0x30,
];

fn byte(random: &mut Random) -> u8 {
    if random.chance(2, 3) { random.pick(&TELLING) } else { random.byte() }
}

/// The sheet with a few bytes changed, put in, taken out or cut off.
pub fn damage(sheet: &[u8], random: &mut Random) -> Vec<u8> {
    let mut damaged = sheet.to_vec();
    for _ in 0..random.between(1, 3) {
        damage_once(&mut damaged, random);
    }
    damaged
}

fn damage_once(sheet: &mut Vec<u8>, random: &mut Random) {
    let place = random.below(sheet.len() + 1);
    match random.below(16) {
        0..=9 if place < sheet.len() => sheet[place] = byte(random),
        10..=12 => sheet.insert(place, byte(random)),
        13 | 14 if place < sheet.len() => {
            sheet.remove(place);
        }
        15 if random.chance(1, 2) => sheet.truncate(place),
        _ => sheet.push(byte(random)),
    }
}

/// Random bytes, in three kinds of four behind counts and widths in range.
pub fn noise(random: &mut Random) -> Vec<u8> {
    let length = random.between(0, 96);
    let mut sheet = if random.chance(3, 4) { head(random) } else { Vec::new() };
    sheet.extend((0..length).map(|_| byte(random)));
    sheet
}

fn head(random: &mut Random) -> Vec<u8> {
    let counts =
        [random.between(1, 3), random.between(1, 3), random.below(3), random.between(1, 2)];
    let variables = counts[0] + counts[1] + counts[2];
    let mut head = counts.map(|n| n as u8).to_vec();
    let with = With::AsRead.drawn(random);
    if with {
        head[0] += WITH_FUNCTIONS;
        head.push(random.between(1, 2) as u8);
    }
    head.extend((0..variables).map(|v| if v == 0 { 1 } else { random.pick(&[1, 1, 8]) }));
    if with {
        let parameters = random.between(1, 2);
        head.push(parameters as u8);
        head.extend((0..=parameters).map(|_| random.pick(&[1, 1, 8])));
    }
    head
}

/// Every proper front part of the sheet.
pub fn truncations(sheet: &[u8]) -> impl Iterator<Item = Vec<u8>> {
    (0..sheet.len()).map(|length| sheet[..length].to_vec())
}

/// Every sheet that differs in one byte.
pub fn changes(sheet: &[u8]) -> impl Iterator<Item = Vec<u8>> {
    (0..sheet.len()).flat_map(move |place| {
        (1..=255).map(move |by| {
            let mut changed = sheet.to_vec();
            changed[place] = changed[place].wrapping_add(by);
            changed
        })
    })
}
