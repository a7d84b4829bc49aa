//! The replay program, and the random scripts for it.

mod tables;

use reference::differ::difference;
use reference::dispatch::Record as Turns;
use reference::random::Random;
use reference::replay::{Cycle, Lent, Record, Script, Table, replay};
use reference::samples::FLIP_FLOP;
use reference::saved::{save, save_old};
use reference::script::script;
use reference::state::{MOST, State};
use reference::states::noise;
use reference::tally::Tally;
use reference::value::Value;

fn output(script: &[u8]) -> String {
    let mut out = Vec::new();
    replay(script, &mut out).expect("a list takes all");
    String::from_utf8(out).expect("text")
}

fn lines(script: &[u8]) -> Vec<String> {
    output(script).lines().map(String::from).collect()
}

/// The lines of records on the flip-flop's sheet.
fn answers(records: &[Record]) -> Vec<String> {
    lines(&Script::write(&FLIP_FLOP.sheet(), records))
}

fn instant(numbers: &[u32]) -> Record {
    Record::Instant(numbers.iter().copied().map(Value::known).collect())
}

// ---- what the records answer

#[test]
fn a_cycle_of_the_flip_flop() {
    let found = answers(&[
        Record::Read,
        Record::Start(MOST),
        Record::Plain(0, 9),
        instant(&[0, 7]),
        instant(&[1, 7]),
        Record::Choose(0, 0),
        Record::Choose(0, 255),
        Record::Run(0, vec![0, 255, 255, 0]),
        Record::Plain(0, 0),
        instant(&[0, 7, 7]),
        instant(&[0, 256]),
        Record::Choose(0, 0),
        Record::Choose(0, 1),
    ]);
    let expected = [
        "read 0 0",
        "start 0",
        "plain 0 0 quiet",
        "instant 0",
        "instant 0",
        "choose 0",
        "choose 34",
        "run 2 35",
        "plain 0 0 quiet",
        "instant 25",
        "instant 25",
        "choose 33",
        "choose 22",
    ];
    assert_eq!(found, expected);
}

#[test]
fn the_listing_in_hexadecimal() {
    let found = answers(&[Record::List]);
    let text: String = FLIP_FLOP.listing.bytes().map(|b| format!("{b:02x}")).collect();
    assert_eq!(found, [format!("list {text}")]);
    let found = lines(&Script::write(&[0], &[Record::List, Record::Read, Record::Start(MOST)]));
    assert_eq!(found, ["list 7265667573656420330a", "read 3 0", "start 3"]);
}

/// The state before the first record is all zero, which fits; a refused start leaves it.
#[test]
fn the_first_state() {
    let zero = format!("state {}", "00".repeat(1024));
    assert_eq!(answers(&[Record::Dump])[0], zero);
    let found =
        lines(&Script::write(&[], &[Record::Start(MOST), Record::Dump, Record::Plain(0, 1)]));
    assert_eq!(found, ["start 2".into(), zero, "plain 0 2 refused".into()]);
    assert_eq!(answers(&[Record::Plain(0, 1)]), ["plain 0 0 quiet"]);
}

/// A loaded state is printed as it stands, whatever it holds.
#[test]
fn states_are_printed_as_loaded() {
    let mut random = Random::new(4);
    for _ in 0..20 {
        let state = noise(&mut random);
        let saved = reference::saved::save(&state);
        let text: String = saved[1..].iter().map(|b| format!("{b:02x}")).collect();
        let found =
            answers(&[Record::Load(Box::new(state)), Record::Choose(0, 0), Record::Dump]);
        assert_eq!(found, ["load".into(), "choose 31".into(), format!("state {text}")]);
    }
}

/// A state of any form is brought over, after the sheet's own numbers; other bytes leave the state.
#[test]
fn bringing_over() {
    let mut state = State::start(&[1, 8, 8], 3, [3, 9, 9, 9]);
    (state.time, state.counts) = (258, [3, 0, 0, 0]);
    let [short, long, counts] = [1, 2, 3].map(|form| save_old(form, &state).expect("short"));
    let text = |saved: &[u8]| -> String { saved.iter().map(|b| format!("{b:02x}")).collect() };
    let expected = format!("state {}", text(&save(&state)[1..]));
    let zero = format!("state {}", "00".repeat(1024));
    for saved in [long, short.clone()] {
        let found = answers(&[Record::Bring(saved.clone(), [3, 9, 9, 9]), Record::Dump]);
        assert_eq!(found, ["bring 0", &expected]);
        let found = answers(&[Record::Bring(saved, [2, 9, 9, 9]), Record::Dump]);
        assert_eq!(found, ["bring 31", &zero]);
    }
    for saved in [counts, save(&state)] {
        let found = answers(&[Record::Bring(saved, [0; 4]), Record::Dump]);
        assert_eq!(found, ["bring 0", &expected]);
    }
    let found = answers(&[Record::Bring(short[..640].to_vec(), MOST), Record::Dump]);
    assert_eq!(found, ["bring 31", &zero]);
    let found = lines(&Script::write(&[], &[Record::Bring(short, MOST), Record::Dump]));
    assert_eq!(found, ["bring 2", &zero]);
}

/// Four users with their own allowances, one that is none, and one whose allowance is used up.
#[test]
fn users() {
    let found = answers(&[
        Record::Start([1, 2, 0, 0]),
        instant(&[0, 7]),
        instant(&[1, 7]),
        Record::Choose(4, 0),
        Record::Choose(4, 9),
        Record::Run(4, vec![]),
        Record::Plain(255, 0),
        Record::Choose(2, 0),
        Record::Choose(0, 0),
        Record::Choose(0, 0),
        Record::Plain(0, 0),
        Record::Plain(0, 1),
        Record::Run(1, vec![0, 255, 255]),
        Record::Plain(3, 9),
        Record::Dump,
    ]);
    let expected = [
        "start 0",
        "instant 0",
        "instant 0",
        "choose 46",
        "choose 22",
        "run 0 46",
        "plain 0 46 refused",
        "choose 47",
        "choose 0",
        "choose 47",
        "plain 0 0 spent",
        "plain 0 47 full",
        "run 2 35",
        "plain 0 0 quiet",
    ];
    assert_eq!(found[..14], expected);
    let counters = [2, 1, 2, 0, 0].map(|n| format!("{n:02x}{}", "00".repeat(7))).concat();
    let allowances = [1, 2, 0, 0].map(|n| format!("{n:02x}000000")).concat();
    assert!(found[14].ends_with(&format!("{counters}{allowances}")), "{}", found[14]);
}

/// Any count of inputs is answered.
#[test]
fn instants_of_any_count() {
    for count in 0..=255 {
        let expected = if count == 2 { "instant 0" } else { "instant 25" };
        assert_eq!(answers(&[Record::Start(MOST), instant(&vec![0; count])])[1], expected);
    }
}

// ---- bad scripts

#[test]
fn heads() {
    assert_eq!(output(&[]), "bad script\n");
    assert_eq!(output(&[4]), "bad script\n");
    assert_eq!(output(&[4, 0]), "bad script\n");
    assert_eq!(output(&[4, 1, 0]), "bad script\n");
    assert_eq!(output(&[4, 0, 0]), "");
    assert_eq!(output(&[4, 0, 0, b'N']), "read 2 0\n");
    for form in (0..=255).filter(|&form| form != 4) {
        assert_eq!(output(&[form, 0, 0, b'N']), "bad script\n");
    }
    let long = [&[4, 255, 255][..], &[0; 65_535], b"N"].concat();
    assert_eq!(output(&long), "read 1 8192\n");
}

#[test]
fn letters() {
    for letter in 0..=255 {
        let head = [4, 0, 0, b'N', letter];
        let found = output(&[&head[..], &[0; 1024]].concat());
        let second = found.lines().nth(1).expect("two lines");
        assert_eq!(second != "bad script", b"NQSCRPILMDXTWKVB".contains(&letter), "{letter}");
    }
}

/// A flag other than 0 or 1 ends the run, wherever it stands.
#[test]
fn flags() {
    let head = Script::write(&FLIP_FLOP.sheet(), &[]);
    let load = |state: &[u8]| output(&[&head[..], b"L", state].concat());
    let mut bytes = [0; 1024];
    let mut flags = 0;
    for place in 0..1024 {
        bytes[place] = 2;
        flags += usize::from(load(&bytes) == "bad script\n");
        bytes[place] = 0;
    }
    assert_eq!(flags, 32 + 32);
    assert_eq!(load(&bytes), "load\n");
    // Inputs past the sixteenth are read.
    let mut inputs = vec![0; 2 + 8 * 18];
    inputs[..2].copy_from_slice(&[b'I', 18]);
    assert_eq!(output(&[&head[..], &inputs].concat()), "instant 25\n");
    assert_eq!(output(&[&head[..], &inputs[..2 + 8 * 17]].concat()), "bad script\n");
    // A turn record's flag, and more turn records than there may be.
    let turns = |count: u8, busy: u8| {
        let mut record = vec![0; 3 + 5 * usize::from(count)];
        (record[0], record[1], record[2]) = (b'B', count, busy);
        output(&[&head[..], &record].concat())
    };
    assert_eq!(turns(1, 1), "dispatch 0 0 0101000000\n");
    assert_eq!(turns(1, 2), "bad script\n");
    assert!(turns(16, 1).starts_with("dispatch 48 none "));
    assert_eq!(turns(17, 1), "bad script\n");
}

/// The lines of earlier records stand whatever comes after.
#[test]
fn front_parts() {
    for seed in 0..20 {
        let script = script(seed);
        let whole = lines(&script);
        let step = script.len() / 40 + 1;
        for length in (0..script.len()).step_by(step) {
            let mut part = lines(&script[..length]);
            if part.last().is_some_and(|line| line == "bad script") {
                part.pop();
            }
            assert_eq!(part, whole[..part.len()]);
        }
    }
}

#[test]
fn records_are_read_as_written() {
    for seed in 0..50 {
        let script = script(seed);
        let read = Script::read(&script);
        if let (Some(sheet), None) = (read.sheet, read.rest) {
            assert_eq!(Script::write(sheet, &read.records), script);
        }
    }
    let records = [
        Record::Read,
        Record::List,
        Record::Start(MOST),
        Record::Choose(0, 200),
        Record::Run(0, (0..=255).cycle().take(65_535).collect()),
        Record::Plain(0, 0x1234),
        Record::Instant(vec![Value { unknown: 0x89AB_CDEF, number: 0xFEDC_BA98 }; 255]),
        Record::Load(Box::new(State::start(&[1, 9], 5, MOST))),
        Record::Bring((0..=255).cycle().take(641).collect(), [1, 2, 3, u32::MAX]),
        Record::Dump,
        Record::Extract(Lent { nodes: 16_385, rows: 1057 }),
        Record::Tables,
        Record::Word { table: Table::Rows, index: 65_535, word: 0x1234 },
        Record::Dispatch(vec![Turns { busy: true, turns: 0x1234_5678 }; 16], 200),
        Record::Cycle(Box::new(Cycle {
            lent: Lent { nodes: 16_384, rows: 0 },
            registers: [Value { unknown: 0x89AB_CDEF, number: 0xFEDC_BA98 }; 32],
            places: [1, 2, 3, 4, 5, 6, 7, 255],
            inputs: vec![Value::known(0x1234_5678); 255],
        })),
    ];
    let script = Script::write(&[1, 2, 3], &records);
    let read = Script::read(&script);
    assert_eq!(
        (read.sheet, &read.records[..], read.rest),
        (Some(&[1, 2, 3][..]), &records[..], None)
    );
}

// ---- random scripts

/// Scripts meet every answer: each number of each call, and each of the plain run's words.
#[test]
fn every_answer_is_met() {
    let mut tally = Tally::default();
    for seed in 0..3000 {
        tally.add(&output(&script(seed)));
        if seed % 100 == 99 && tally.missing().is_empty() {
            return;
        }
    }
    panic!("never met: {}", tally.missing().join(", "));
}

#[test]
fn a_seed_gives_one_script() {
    assert!((0..10).all(|seed| script(seed) == script(seed)));
    assert!((0..10).all(|seed| script(seed) != script(seed + 1)));
}

#[test]
fn damaged_scripts() {
    let damaged = (0..200).filter(|&seed| Script::read(&script(seed)).rest.is_some()).count();
    assert!(damaged > 5, "{damaged}");
}

// ---- differences

#[test]
fn differences_are_named() {
    let records = [Record::Start(MOST), Record::Choose(0, 7), Record::Dump];
    let script = Script::write(&FLIP_FLOP.sheet(), &records);
    let reference = output(&script);
    let differ = |other: &str| difference(&script, reference.as_bytes(), other.as_bytes());
    assert_eq!(differ(&reference), None);
    let report = differ(&reference.replace("choose 22", "choose 33")).expect("a difference");
    let expected = "line 2, record `user 0 chooses 7`, after `start [4294967295, 4294967295, \
        4294967295, 4294967295]`\n  reference: choose 22\n  other: choose 33";
    assert_eq!(report, expected);
    // The last count's first byte is the eighth before the allowances.
    let (before, allowances) = reference.split_at(reference.len() - 1 - 2 * 16);
    let other = format!("{}0100000000000000{allowances}", &before[..before.len() - 16]);
    let report = differ(&other).expect("a difference");
    assert!(report.starts_with("line 3, record `state`, after `user 0 chooses 7`"), "{report}");
    assert!(report.ends_with("count 3: 0000000000000000 and 0100000000000000"), "{report}");
    // A word of a table, a wire of a cycle run.
    let zero = [Value::ZERO; 32];
    let (lent, inputs) = (Lent::RIGHT, vec![]);
    let cycle = Cycle { lent, registers: zero, places: [0; 8], inputs };
    let records = [Record::Tables, Record::Cycle(Box::new(cycle))];
    let tables = Script::write(&FLIP_FLOP.sheet(), &records);
    let reference = output(&tables);
    let changed = |place: usize| {
        let mut other = reference.clone().into_bytes();
        other[place] = b'7';
        difference(&tables, reference.as_bytes(), &other).expect("a difference")
    };
    assert!(changed(6 + 4 * 9 + 1).ends_with("node word 9: aaaa and a7aa"));
    let rows = 6 + 4 * 16_385 + 6;
    assert!(changed(rows + 4 * 1056).ends_with("row word 1056: aaaa and 7aaa"));
    let lane = rows + 4 * 1057 + 1 + "cycle 24 ".len();
    assert!(changed(lane + 512 + 1).ends_with("place 0: 00 and 07"));
    let wire = changed(lane + 528 + 16);
    assert!(wire.ends_with("wire 1: 00000000ffffffff and 70000000ffffffff"), "{wire}");
    // A line too few.
    let report = differ("start 0\n").expect("a difference");
    assert!(report.ends_with("reference: choose 22\n  other: no line"), "{report}");
}
