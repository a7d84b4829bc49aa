//! The samples of document 01 and the listings under tests/data.

use reference::limits;
use reference::pseudocode::print;
use reference::samples::{ALL, FLIP_FLOP, from_hex};
use reference::sheet::{Refusal, read};

const FLIP_FLOP_LISTING: &str = "threads 1\n0 0 wait 1 0\n0 1 later 2 v1\n0 2 go 0\n";

#[test]
fn flip_flop() {
    let sheet = from_hex("02 01 00 01 01 08 08 0C 10 01 01 00 23 02 02 01");
    assert_eq!(sheet, FLIP_FLOP.sheet());
    assert_eq!(print(&sheet), FLIP_FLOP_LISTING);
}

#[test]
fn bench_listings() {
    for bench in ALL {
        assert_eq!(print(&bench.sheet()), bench.listing, "{}", bench.name);
    }
}

#[test]
fn refusals_are_listed_by_number() {
    assert_eq!(print(&[]), "refused 2\n");
    assert_eq!(print(&[0]), "refused 3\n");
    assert_eq!(print(&from_hex("02 01 00 01 01 08 08 00 00")), "refused 10\n");
}

/// `o6 v1 c8:5`, and `u8` for an 8-bit x.
#[test]
fn expressions_are_listed_operator_first() {
    let sheet = from_hex("02 01 00 01 01 08 08 03 02 31 06 02 01 0C 08 05 00 00 00");
    assert_eq!(print(&sheet), "threads 1\n0 0 set 2 o6 v1 c8:5\n0 1 go 0\n");
    let sheet = from_hex("02 01 00 01 01 08 08 03 02 04 08");
    assert_eq!(print(&sheet), "threads 1\n0 0 set 2 u8\n0 1 go 0\n");
}

#[test]
fn a_wait_lists_all_its_terms() {
    let sheet = from_hex("02 01 00 01 01 08 08 10 03 01 00 00 01 02 00");
    assert_eq!(print(&sheet), "threads 1\n0 0 wait 1 0 0 1 2 0\n0 1 go 0\n");
}

#[test]
fn limits_give_the_answer_written_beside_them() {
    for (name, samples) in limits::groups() {
        for (index, sample) in samples.iter().enumerate() {
            let answer = match read(&sample.sheet) {
                Ok(_) => (0, 0),
                Err(Refusal { number, place }) => (number, place),
            };
            assert_eq!(
                answer,
                (sample.number, sample.place),
                "{name} {index}: {:02x?}",
                sample.sheet
            );
        }
    }
}

#[test]
fn fullest_sheet() {
    let sheet = limits::fullest();
    assert_eq!(sheet.len(), 8192);
    let text = print(&sheet);
    assert_eq!(text.lines().count(), 1 + 8 * 256);
}
