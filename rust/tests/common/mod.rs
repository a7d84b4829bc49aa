//! Sheets for the tests: document 01's flip-flop, sheets of tests/data, and parts to make others of.

#![allow(dead_code)]

use walbryts::{Sheet, USERS};

/// The greatest allowance for each user.
pub const MOST: [u32; USERS] = [u32::MAX; USERS];

pub const FLIP_FLOP: [u8; 16] = [2, 1, 0, 1, 1, 8, 8, 0x0C, 0x10, 1, 1, 0, 0x23, 2, 2, 1];
pub const WATCHDOG: &str = include_str!("../../../tests/data/watchdog.hex");
pub const PIPE8: &str = include_str!("../../../tests/data/pipe8.hex");

pub fn flip_flop() -> Sheet {
    Sheet::read(&FLIP_FLOP).expect("document 01's sheet")
}

pub fn of_hex(text: &str) -> Sheet {
    let byte = |digits| u8::from_str_radix(digits, 16).expect("two hexadecimal digits");
    let bytes: Vec<u8> = text.split_whitespace().map(byte).collect();
    Sheet::read(&bytes).expect("a sheet that is read")
}

// ---- parts of sheets

pub type Part = Vec<u8>;

/// A clock and an input 1 of 8 bits, registers 2 and 3 of 8 bits; wires of 8 bits from 4 on.
pub fn sheet(wires: &[Part], threads: &[Part]) -> Sheet {
    let mut bytes = vec![2, 2, wires.len() as u8, threads.len() as u8, 1, 8, 8, 8];
    bytes.extend(wires.iter().map(|_| 8));
    bytes.extend(wires.concat());
    bytes.extend(threads.concat());
    Sheet::read(&bytes).expect("a sheet that is read")
}

pub fn variable(v: u8) -> Part {
    vec![0x02, v]
}

pub fn wait() -> Part {
    vec![0x10, 1, 1, 0]
}

pub fn set(target: u8, value: Part) -> Part {
    [vec![0x03, target], value].concat()
}

pub fn later(target: u8, value: Part) -> Part {
    [vec![0x23, target], value].concat()
}

pub fn when(condition: Part, body: Part) -> Part {
    [vec![0x06], condition, body].concat()
}

pub fn repeat(condition: Part, body: Part) -> Part {
    [vec![0x46], condition, body].concat()
}

/// The statements one after the other, nested to the right.
pub fn list(statements: &[Part]) -> Part {
    match statements {
        [] => vec![0x00],
        [one] => one.clone(),
        [first, rest @ ..] => [vec![0x0C], first.clone(), list(rest)].concat(),
    }
}
