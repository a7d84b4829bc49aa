//! Sheets with functions: each limit, and reading and encoding as inverses.

use reference::census::Census;
use reference::encode::encode;
use reference::functions::With;
use reference::generate::{ill_typed_module_by, module_by};
use reference::limits;
use reference::mutate::{changes, damage, truncations};
use reference::pseudocode::printed;
use reference::random::Random;
use reference::samples::from_hex;
use reference::sheet::{FUNCTIONS, Refusal, read, read_with_functions};

/// Number and place, both 0 where the sheet is read.
fn answer(sheet: &[u8]) -> (u8, usize) {
    match read_with_functions(sheet) {
        Ok(_) => (0, 0),
        Err(Refusal { number, place }) => (number, place),
    }
}

/// A clamp: `f0(a, b) = a < b ? a : b` by an if-else; `assign w = f0(i1, 8'd9)`.
pub const CLAMP: &str = "82 01 01 01 01 01 08 08 08
    02 08 08 08 0E 31 09 02 00 02 01 03 02 02 00 03 02 02 01
    80 00 02 01 0C 08 09 00 00 00
    0C 10 01 01 00 23 02 80 00 02 03 02 02";

#[test]
fn limits_give_the_answer_written_beside_them() {
    let mut met = [0; 256];
    for (name, samples) in limits::with_functions() {
        for (index, sample) in samples.iter().enumerate() {
            let found = answer(&sample.sheet);
            let expected = (sample.number, sample.place);
            assert_eq!(found, expected, "{name} {index}: {:02x?}", sample.sheet);
            met[usize::from(found.0)] += 1;
        }
    }
    for number in [0, 2, 3, 4, 5, 6, 7, 8, 9, 44, 45] {
        assert!(met[number] > 0, "{number}");
    }
}

/// As long as sheets with functions aren't read, the first byte is a count out of range.
#[test]
fn without_the_switch_they_are_refused_with_3() {
    for sheet in limits::with_functions().into_iter().flat_map(|group| group.1) {
        let first = sheet.sheet.first().copied().unwrap_or(0);
        if !FUNCTIONS && first >= 128 {
            assert_eq!(read(&sheet.sheet), Err(Refusal { number: 3, place: 0 }));
        }
    }
}

#[test]
fn a_call_is_listed_by_its_number_and_arguments() {
    let listing = "threads 1\n0 0 wait 1 0\n0 1 later 2 f0 v3 v2\n0 2 go 0\n";
    assert_eq!(printed(&read_with_functions(&from_hex(CLAMP))), listing);
}

#[test]
fn modules_are_read_as_written() {
    let mut random = Random::new(51);
    let mut census = Census::default();
    for _ in 0..2000 {
        let module = module_by(With::Some, &mut random);
        assert_eq!(read_with_functions(&encode(&module)).as_ref(), Ok(&module));
        census.add(&module);
    }
    assert_eq!(census.missing(), Vec::<String>::new());
}

/// Without functions both readings give the same, and what the switch changes is a first byte of
/// 129 to 144.
#[test]
fn other_sheets_are_read_as_before() {
    let mut random = Random::new(52);
    for _ in 0..2000 {
        let sheet = encode(&module_by(With::None, &mut random));
        assert_eq!(read(&sheet), read_with_functions(&sheet));
        let damaged = damage(&sheet, &mut random);
        if !(129..=144).contains(damaged.first().unwrap_or(&0)) {
            assert_eq!(read(&damaged), read_with_functions(&damaged));
        }
    }
}

#[test]
fn accepted_sheets_are_written_as_read() {
    let mut accepted = 0;
    for sheet in changes(&from_hex(CLAMP)) {
        if let Ok(module) = read_with_functions(&sheet) {
            assert_eq!(encode(&module), sheet);
            accepted += 1;
        }
    }
    assert!(accepted > 250, "{accepted}");
    let sheet = from_hex(CLAMP);
    for front in truncations(&sheet) {
        assert_eq!(answer(&front), (2, front.len()));
    }
    assert_eq!(answer(&[&sheet[..], &[0]].concat()), (10, sheet.len()));
}

/// The careless generator and damage come to every number but 1 and 7.
#[test]
fn damaged_sheets_meet_each_number() {
    let mut random = Random::new(53);
    let mut met = [0; 256];
    for _ in 0..4000 {
        let sheet = encode(&ill_typed_module_by(With::Some, &mut random));
        for sheet in [damage(&sheet, &mut random), sheet] {
            met[usize::from(answer(&sheet).0)] += 1;
        }
    }
    for number in [0, 2, 3, 4, 5, 6, 8, 9, 10, 11, 44, 45] {
        assert!(met[number] > 0, "{number}");
    }
}
