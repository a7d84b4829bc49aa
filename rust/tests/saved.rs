//! States saved and loaded.

mod common;

use common::{MOST, WATCHDOG, flip_flop, of_hex};
use walbryts::{Inputs, NotSaved, SAVED, State, Value};

#[test]
fn a_saved_state_loads_and_goes_on() {
    let sheet = of_hex(WATCHDOG);
    let mut state = sheet.start(MOST);
    sheet.run_plain(&mut state, 0, u16::MAX).unwrap();
    for clock in [0, 1] {
        sheet.instant(&mut state, &Inputs::from([clock, 1, 7, 3, 0])).unwrap();
        let mut loaded = State::load(state.save()).unwrap();
        assert_eq!(loaded, state);
        let run = sheet.run_plain(&mut state, 0, u16::MAX).unwrap();
        assert_eq!(sheet.run_plain(&mut loaded, 0, u16::MAX).unwrap(), run);
        assert_eq!(loaded, state);
    }
}

#[test]
fn the_start_as_it_is_saved() {
    let sheet = of_hex(WATCHDOG);
    let start = sheet.start(MOST);
    assert_eq!(start.save()[0], 4);
    let width = |variable: usize| sheet.widths().get(variable).copied().unwrap_or(32);
    assert!((0..80).all(|v| start.value(v) == Value::all_unknown(width(v))));
    assert!((0..32).all(|register| start.pending(register).is_none()));
    assert!((0..8).all(|thread| start.place(thread) == 0));
    let due: Vec<usize> = (0..32).filter(|&wire| start.due(wire)).collect();
    assert_eq!(due, [0, 1]);
    assert_eq!((start.time(), start.count(0)), (0, 0));
}

#[test]
fn other_bytes_are_no_state() {
    let saved = *flip_flop().start(MOST).save();
    assert_eq!(State::load(&[]), Err(NotSaved));
    assert_eq!(State::load(&saved[1..]), Err(NotSaved));
    assert_eq!(State::load(&[&saved[..], &[0]].concat()), Err(NotSaved));
    // The form, flags of slots and wires.
    for at in [0, 641, 650, 920, 937, 968] {
        let mut other = saved;
        other[at] = 2;
        assert_eq!(State::load(&other), Err(NotSaved), "byte {at}");
    }
    // Numbers, marks, places, time, counts and allowances may be any.
    for at in [1, 5, 640, 642, 646, 928, 929, 936, 969, SAVED - 1] {
        let mut other = saved;
        other[at] = 2;
        assert_eq!(State::load(&other).unwrap().save(), &other, "byte {at}");
    }
}

/// The flip-flop's state as forms 1 to 3 have it: the clock x, the input 200, the register x with a
/// number under it, pending x, a mark past the sheet's wires and the numbers of `tail`.
fn old(form: u8, tail: &[u8]) -> Vec<u8> {
    let mut bytes = vec![0; 633];
    bytes[0] = form;
    bytes[1] = 1;
    bytes[7] = 200;
    bytes[11..13].copy_from_slice(&[1, 99]);
    bytes[16] = 1;
    bytes[401..404].copy_from_slice(&[1, 1, 77]);
    bytes[408] = 1;
    bytes[593] = 2;
    bytes[632] = 1;
    bytes.extend(tail);
    bytes
}

/// The same as it is brought over, with these counters.
fn held(state: &State, time: u64, counts: [u64; 4], allowances: [u32; 4]) {
    let values = [1, 8, 8, 32].map(Value::all_unknown);
    assert_eq!(
        [0, 1, 2, 3].map(|v| state.value(v)),
        [values[0], Value::known(200), values[2], values[3]]
    );
    assert!((4..80).all(|v| state.value(v) == Value::known(0)));
    assert_eq!((state.pending(0), state.pending(1)), (Some(values[2]), None));
    // Slot 1 isn't held, and has its x all the same.
    assert_eq!(state.save()[650..659], [0, 0, 0, 0, 0, 255, 255, 255, 255]);
    assert_eq!((state.place(0), state.due(30), state.due(31)), (2, false, true));
    assert_eq!(state.time(), time);
    assert_eq!([0, 1, 2, 3].map(|user| state.count(user)), counts);
    assert_eq!([0, 1, 2, 3].map(|user| state.allowance(user)), allowances);
}

/// States in forms 1 and 2, with one count, are brought over; their form in other bytes is none.
#[test]
fn one_count_is_brought_over() {
    let sheet = flip_flop();
    let short = old(1, &[0xFF, 0xFF, 0xFF, 0xFF, 7, 0, 0, 1]);
    let long = old(2, &[0xFF, 0xFF, 0xFF, 0xFF, 0, 0, 0, 0, 7, 0, 0, 1, 0, 0, 0, 0]);
    let allowances = [0x0100_0007, 1, 2, u32::MAX];
    for old in [&short, &long] {
        let brought = State::bring_over(&sheet, old, allowances).unwrap();
        held(&brought, u32::MAX.into(), [0x0100_0007, 0, 0, 0], allowances);
        assert_eq!(State::load(old), Err(NotSaved));
        let refused = |bytes: &[u8], allowances| {
            State::bring_over(&sheet, bytes, allowances).unwrap_err().number()
        };
        assert_eq!(refused(old, [0x0100_0006, 9, 9, 9]), 31);
        assert_eq!(refused(&old[..old.len() - 1], MOST), 31);
        for form in (0..=255).filter(|&form| form != old[0]) {
            assert_eq!(refused(&[&[form], &old[1..]].concat(), MOST), 31);
        }
        for at in [1, 401, 402, 601, 632] {
            let mut other = old.clone();
            other[at] = 2;
            assert_eq!(refused(&other, MOST), 31, "byte {at}");
        }
    }
}

/// A state in form 3 keeps its counts and allowances, also a count above; one in the form that is
/// written is taken as it stands.
#[test]
fn four_counts_are_brought_over() {
    let sheet = flip_flop();
    let (counts, allowances) = ([5, 6, 7, 1 << 40], [9, 0, 7, u32::MAX]);
    let mut tail = 3_u64.to_le_bytes().to_vec();
    counts.iter().for_each(|count: &u64| tail.extend(count.to_le_bytes()));
    allowances.iter().for_each(|allowance: &u32| tail.extend(allowance.to_le_bytes()));
    let brought = State::bring_over(&sheet, &old(3, &tail), [0; 4]).unwrap();
    held(&brought, 3, counts, allowances);
    assert_eq!(State::bring_over(&sheet, brought.save(), [0; 4]).unwrap(), brought);
}

/// The time goes on past 32 bits, and stops at the end of 64.
#[test]
fn long_time() {
    let sheet = flip_flop();
    let mut state = sheet.start(MOST);
    let inputs = Inputs::from([0, 5]);
    for (time, after) in
        [(u64::from(u32::MAX), Ok(())), (u64::MAX - 1, Ok(())), (u64::MAX, Err(36))]
    {
        let mut bytes = *state.save();
        bytes[969..977].copy_from_slice(&time.to_le_bytes());
        state = State::load(&bytes).unwrap();
        let found = sheet.instant(&mut state, &inputs).map_err(|refusal| refusal.number());
        assert_eq!(found, after, "time {time}");
        assert_eq!(state.time(), if after.is_ok() { time + 1 } else { time });
    }
}

#[test]
fn a_value_that_is_set() {
    let sheet = flip_flop();
    let mut state = sheet.start(MOST);
    for value in [Value::known(0x00C0_FFEE), Value { number: 1 << 31, unknown: 0x0FED_CBA9 }] {
        state.set_value(2, value);
        assert_eq!(state.value(2), value);
        let around = (state.value(1), state.value(3));
        assert_eq!(around, (Value::all_unknown(8), Value::all_unknown(32)));
    }
    state.set_value(2, Value::all_unknown(8));
    assert_eq!(state, sheet.start(MOST));
}
