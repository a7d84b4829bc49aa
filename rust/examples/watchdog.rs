//! A watchdog with a dead gauge, by events and by expressions: `cargo run --example watchdog`.
//!
//! The gauge repeats its reading. A repeated reading is no event: no input changes and no wire is
//! marked; but in each clock cycle the watchdog counts it, and at its limit, 3, it trips.

use std::error::Error;

use walbryts::{Inputs, Registers, Rows, Sheet, State, USERS};

const WATCHDOG: &str = include_str!("../../tests/data/watchdog.hex");
/// Registers of the watchdog: the count of repeated readings, and whether it has tripped.
const COUNTED: usize = 1;
const TRIPPED: usize = 2;

fn main() -> Result<(), Box<dyn Error>> {
    let bytes: Result<Vec<u8>, _> =
        WATCHDOG.split_whitespace().map(|digits| u8::from_str_radix(digits, 16)).collect();
    let sheet = Sheet::read(&bytes?)?;
    let tables = sheet.extract()?;
    let mut state = sheet.start([u32::MAX; USERS]);
    sheet.run_plain(&mut state, 0, u16::MAX)?;
    let mut registers = Registers::start(&sheet);
    println!("cycle reading counted tripped choices");
    for (cycle, reading) in [0, 7, 7, 7, 7, 7, 7].into_iter().enumerate() {
        // Reset, reading, limit, acknowledged.
        let inputs = [u32::from(cycle == 0), reading, 3, 0];
        let before = state.count(0);
        by_events(&sheet, &mut state, inputs)?;
        sheet.cycle(&tables, &mut registers, &Inputs::from(inputs))?;
        assert_eq!(registers, Registers::of(&sheet, &state));
        let shown = |r| registers.value(r).shown(sheet.widths()[sheet.register(r)]);
        let [counted, tripped] = [COUNTED, TRIPPED].map(shown);
        let choices = state.count(0) - before;
        println!("{cycle:>5} {reading:>7} {counted:>7} {tripped:>7} {choices:>7}");
    }
    Ok(())
}

/// One clock cycle by events.
fn by_events(sheet: &Sheet, state: &mut State, inputs: [u32; 4]) -> Result<(), Box<dyn Error>> {
    let mut rows = Rows::new(sheet);
    rows.push(inputs)?;
    match sheet.run_cycles(state, 0, &rows)?.stopped {
        None => Ok(()),
        Some(refusal) => Err(refusal.into()),
    }
}
