//! Saved states.

use reference::build::{add, at_clk, later, module, v};
use reference::module::Module;
use reference::random::Random;
use reference::saved::{
    COUNTS_BYTES, LONG_BYTES, SHORT_BYTES, STATE_BYTES, bring_over, load, save, save_old,
};
use reference::state::{MOST, Pending, State};
use reference::states::noise;
use reference::value::Value;

/// Inputs of 1 and 5 bits, a register of 9, a wire of 5.
fn some_module() -> Module {
    let threads = vec![at_clk(vec![later(2, v(2))])];
    module(&[1, 5], &[9], vec![(5, add(v(1), v(1)))], threads).expect("read")
}

#[test]
fn states_are_loaded_as_saved() {
    let mut random = Random::new(1);
    for state in [State::ZERO, State::start(&[1, 8], 32, MOST)]
        .into_iter()
        .chain((0..200).map(|_| noise(&mut random)))
    {
        let saved = save(&state);
        assert_eq!(saved.len(), 1 + STATE_BYTES);
        assert_eq!(load(&saved), Some(state));
    }
}

/// Whatever is loaded is saved as it was.
#[test]
fn bytes_are_saved_as_loaded() {
    let mut random = Random::new(2);
    let mut bytes = save(&noise(&mut random));
    let mut loaded = 0;
    for place in 1..bytes.len() {
        let before = bytes[place];
        for byte in 0..=255 {
            bytes[place] = byte;
            if let Some(state) = load(&bytes) {
                assert_eq!(save(&state), bytes);
                loaded += 1;
            }
        }
        bytes[place] = before;
    }
    // Values, places and counters may be any byte; flags and what is due 0 or 1.
    assert_eq!(loaded, (8 * (80 + 32) + 8 + 8 + 4 * (8 + 4)) * 256 + (32 + 32) * 2);
}

/// Where each field stands.
#[test]
fn layout() {
    let mut state = State::ZERO;
    state.values[1] = Value { number: 0x0403_0201, unknown: 0x0807_0605 };
    state.pending[0] = Pending { held: true, slot: Value { number: 0x0605, unknown: 0x0807 } };
    state.places = [1, 2, 3, 4, 5, 6, 7, 8];
    state.due[31] = true;
    state.time = 0x0E0D_0C0B_0A09_0807;
    state.counts = [0x1615_1413_1211_100F, 2, 3, 4];
    state.allowances = [5, 6, 7, 0x0403_0201];
    let mut expected = vec![0; 1 + STATE_BYTES];
    expected[0] = 4;
    expected[1 + 8..1 + 16].copy_from_slice(&[1, 2, 3, 4, 5, 6, 7, 8]);
    expected[1 + 640..1 + 649].copy_from_slice(&[1, 5, 6, 0, 0, 7, 8, 0, 0]);
    expected[1 + 928..1 + 936].copy_from_slice(&[1, 2, 3, 4, 5, 6, 7, 8]);
    expected[1 + 967] = 1;
    let counters: Vec<u8> = (7..=22).collect();
    expected[1 + 968..1 + 984].copy_from_slice(&counters);
    for (at, byte) in [(984, 2), (992, 3), (1000, 4), (1008, 5), (1012, 6), (1016, 7)] {
        expected[1 + at] = byte;
    }
    expected[1 + 1020..].copy_from_slice(&[1, 2, 3, 4]);
    assert_eq!(save(&state), expected);
}

/// The same of the older forms, in which a value is x or not.
#[test]
fn older_layouts() {
    let mut state = State::ZERO;
    state.values[1] = Value { number: 0x0403_0201, unknown: 8 };
    state.pending[0] = Pending { held: true, slot: Value { number: 0x0605, unknown: 0 } };
    state.places = [1, 2, 3, 4, 5, 6, 7, 8];
    state.due[31] = true;
    state.time = 0x0E0D_0C0B_0A09_0807;
    state.counts = [0x1615_1413_1211_100F, 2, 3, 4];
    state.allowances = [5, 6, 7, 0x0403_0201];
    let mut expected = vec![0; 1 + COUNTS_BYTES];
    expected[0] = 3;
    expected[1 + 5..1 + 10].copy_from_slice(&[1, 1, 2, 3, 4]);
    expected[1 + 400..1 + 406].copy_from_slice(&[1, 0, 5, 6, 0, 0]);
    expected[1 + 592..1 + 600].copy_from_slice(&[1, 2, 3, 4, 5, 6, 7, 8]);
    expected[1 + 631] = 1;
    let counters: Vec<u8> = (7..=22).collect();
    expected[1 + 632..1 + 648].copy_from_slice(&counters);
    for (at, byte) in [(648, 2), (656, 3), (664, 4), (672, 5), (676, 6), (680, 7)] {
        expected[1 + at] = byte;
    }
    expected[1 + 684..].copy_from_slice(&[1, 2, 3, 4]);
    assert_eq!(save_old(3, &state), Some(expected.clone()));
    // The forms with one count: user 0's.
    expected[0] = 2;
    expected.truncate(1 + LONG_BYTES);
    assert_eq!(save_old(2, &state), Some(expected.clone()));
    assert_eq!(save_old(1, &state), None);
    (state.time, state.counts[0]) = (0x0A09_0807, 0x0E0D_0C0B);
    expected[0] = 1;
    expected.truncate(1 + SHORT_BYTES);
    assert_eq!(save_old(1, &state), Some(expected));
}

/// The state as an older form has it: what is x is unknown in all bits of its variable, and in 32 bits
/// past the last.
fn as_whole(state: &State) -> State {
    let whole = |value: &mut Value, width| {
        if !value.is_known() {
            *value = Value::x(width);
        }
    };
    let mut state = state.clone();
    let widths = [1, 5, 9, 5].into_iter().chain([32; 76]);
    state.values.iter_mut().zip(widths).for_each(|(value, width)| whole(value, width));
    let widths = [9].into_iter().chain([32; 31]);
    state.pending.iter_mut().zip(widths).for_each(|(p, width)| whole(&mut p.slot, width));
    state
}

/// One count becomes user 0's, the allowances are those handed over; a count above the first of
/// them is refused. Form 3 keeps its own; the form that is written is taken as it stands.
#[test]
fn older_forms_are_brought_over() {
    let mut random = Random::new(3);
    let module = some_module();
    for _ in 0..200 {
        let now = noise(&mut random);
        assert_eq!(bring_over(&module, &save(&now), [0; 4]), Ok(now.clone()));
        let old = save_old(3, &now).expect("four counts");
        assert_eq!(bring_over(&module, &old, [0; 4]), Ok(as_whole(&now)));
        let mut state = now;
        (state.time, state.counts) = (state.time >> 32, [random.number() >> 40, 0, 0, 0]);
        let count = state.counts[0] as u32;
        for (first, number) in [(count, 0), (u32::MAX, 0), (count.wrapping_sub(1), 31)] {
            let allowances = [first, 7, 0, u32::MAX];
            let brought = State { allowances, ..as_whole(&state) };
            let expected = if first < count { Err(number) } else { Ok(brought) };
            for form in [1, 2] {
                let old = save_old(form, &state).expect("short counters");
                assert_eq!(bring_over(&module, &old, allowances), expected);
            }
        }
    }
    let state = State { counts: [1 << 32, 0, 0, 0], ..State::ZERO };
    assert_eq!(bring_over(&module, &save_old(2, &state).expect("long"), MOST), Err(31));
}

#[test]
fn other_bytes_are_no_state() {
    let saved = save(&State::start(&some_module().widths, 3, MOST));
    for length in 0..saved.len() {
        assert_eq!(load(&saved[..length]), None);
    }
    assert_eq!(load(&[&saved[..], &[0]].concat()), None);
    let module = some_module();
    for form in (0..=255).filter(|&form| form != 4) {
        assert_eq!(load(&[&[form], &saved[1..]].concat()), None);
        assert_eq!(bring_over(&module, &[&[form], &saved[1..]].concat(), MOST), Err(31));
    }
    for own in [1, 2, 3] {
        let saved = save_old(own, &State::start(&module.widths, 3, MOST)).expect("short");
        assert_eq!(load(&saved), None);
        assert_eq!(
            bring_over(&module, &saved, MOST),
            Ok(State::start(&some_module().widths, 3, MOST))
        );
        for form in (0..=255).filter(|&form| form != own) {
            assert_eq!(bring_over(&module, &[&[form], &saved[1..]].concat(), MOST), Err(31));
        }
        for length in 0..saved.len() {
            assert_eq!(bring_over(&module, &saved[..length], MOST), Err(31));
        }
    }
}
