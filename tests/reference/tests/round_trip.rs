//! Reading and encoding undo each other.

use reference::census::Census;
use reference::encode::encode;
use reference::generate::module;
use reference::mutate::changes;
use reference::pseudocode::{size, translate, translate_thread};
use reference::random::Random;
use reference::samples;
use reference::sheet::{Refusal, read};

#[test]
fn modules_are_read_as_written() {
    let mut random = Random::new(1);
    let mut census = Census::default();
    for _ in 0..3000 {
        let module = module(&mut random);
        assert_eq!(read(&encode(&module)).as_ref(), Ok(&module));
        census.add(&module);
    }
    assert_eq!(census.missing(), Vec::<String>::new());
}

#[test]
fn accepted_sheets_are_written_as_read() {
    let mut accepted = 0;
    for bench in [samples::FLIP_FLOP, samples::COUNTER, samples::WATCHDOG] {
        for sheet in changes(&bench.sheet()) {
            if let Ok(module) = read(&sheet) {
                assert_eq!(encode(&module), sheet);
                accepted += 1;
            }
        }
    }
    assert!(accepted > 1000, "{accepted}");
}

/// A front part of an accepted sheet ends early; a longer sheet has bytes after
/// the end.
#[test]
fn no_front_part_and_no_longer_sheet_is_accepted() {
    for sheet in samples::ALL.map(|bench| bench.sheet()) {
        for length in 0..sheet.len() {
            assert_eq!(read(&sheet[..length]), Err(Refusal { number: 2, place: length }));
        }
        for byte in 0..=255 {
            let longer = [&sheet[..], &[byte]].concat();
            assert_eq!(read(&longer), Err(Refusal { number: 10, place: sheet.len() }));
        }
    }
}

#[test]
fn a_statement_has_as_many_instructions_as_its_size() {
    let mut random = Random::new(3);
    for _ in 0..500 {
        for thread in module(&mut random).threads {
            assert_eq!(translate(&thread).len(), size(&thread));
            assert_eq!(translate_thread(&thread).len(), size(&thread) + 1);
        }
    }
}
