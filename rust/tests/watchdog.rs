//! The watchdog: a reading that is repeated as often as the limit says is a dead gauge, which
//! trips it. The same by events and by expressions, in every cycle.

mod common;

use common::{MOST, WATCHDOG, of_hex};
use walbryts::{Inputs, Registers, Rows, Sheet, Value};

/// Reset, reading, limit, acknowledged.
type Cycle = [u32; 4];

const TRIPPED: usize = 2;

/// Whether it has tripped after each cycle, by events; the expressions must say the same.
fn trips(sheet: &Sheet, cycles: &[Cycle]) -> Vec<Value> {
    let tables = sheet.extract().expect("extractable");
    let mut state = sheet.start(MOST);
    sheet.run_plain(&mut state, 0, u16::MAX).expect("the start state fits");
    let mut registers = Registers::start(sheet);
    cycles.iter().map(|&cycle| one(sheet, &tables, &mut state, &mut registers, cycle)).collect()
}

fn one(
    sheet: &Sheet,
    tables: &walbryts::Tables,
    state: &mut walbryts::State,
    registers: &mut Registers,
    cycle: Cycle,
) -> Value {
    let mut rows = Rows::new(sheet);
    rows.push(cycle).unwrap();
    assert_eq!(sheet.run_cycles(state, 0, &rows).unwrap().stopped, None);
    let wires = sheet.cycle(tables, registers, &Inputs::from(cycle)).unwrap();
    assert_eq!(*registers, Registers::of(sheet, state));
    for wire in 0..sheet.wires() {
        assert_eq!(wires.value(wire), state.value(sheet.wire(wire)));
    }
    registers.value(TRIPPED)
}

/// A reset, then readings with the limit 3.
fn readings(readings: &[u32]) -> Vec<Cycle> {
    let after = readings.iter().map(|&reading| [0, reading, 3, 0]);
    [[1, 0, 3, 0]].into_iter().chain(after).collect()
}

fn numbers(values: &[Value]) -> Vec<u32> {
    values.iter().map(|value| value.as_known().expect("known after the reset")).collect()
}

#[test]
fn a_dead_gauge_trips_it() {
    let trips = trips(&of_hex(WATCHDOG), &readings(&[7; 7]));
    assert_eq!(numbers(&trips), [0, 0, 0, 0, 0, 1, 1, 1]);
}

#[test]
fn a_live_gauge_does_not() {
    let trips = trips(&of_hex(WATCHDOG), &readings(&[7, 8, 8, 9, 9, 9, 7, 7]));
    assert_eq!(numbers(&trips), [0; 9]);
}

/// The repeated reading is no event: an instant that sets the inputs to what they are fires no
/// wait and marks no wire.
#[test]
fn a_repeated_reading_is_no_event() {
    let sheet = of_hex(WATCHDOG);
    let mut state = sheet.start(MOST);
    let low = Inputs::from([0, 0, 7, 3, 0]);
    sheet.instant(&mut state, &low).expect_err("wires are due at the start");
    sheet.run_plain(&mut state, 0, u16::MAX).unwrap();
    sheet.instant(&mut state, &low).unwrap();
    sheet.run_plain(&mut state, 0, u16::MAX).unwrap();
    let (time, count) = (state.time(), state.count(0));
    sheet.instant(&mut state, &low).unwrap();
    assert_eq!(sheet.run_plain(&mut state, 0, u16::MAX).unwrap().accepted, 0);
    assert_eq!((state.time(), state.count(0)), (time + 1, count));
}

#[test]
fn acknowledged_it_starts_again() {
    let mut cycles = readings(&[7; 6]);
    cycles.extend([[0, 8, 3, 1], [0, 9, 3, 0], [0, 7, 3, 0]]);
    let trips = trips(&of_hex(WATCHDOG), &cycles);
    assert_eq!(numbers(&trips), [0, 0, 0, 0, 0, 1, 1, 0, 0, 0]);
}
