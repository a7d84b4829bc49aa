//! The records about tables.

use reference::replay::{Cycle, Lent, Record, Script, Table};
use reference::samples::FLIP_FLOP;

use crate::{answers, output};
use reference::value::Value;

/// All words of both tables, these first ones in front.
fn tables(nodes: &[u16], filled_nodes: usize, rows: &[u16], filled_rows: usize) -> String {
    let words = |words: &[u16], filled: usize, all: usize| -> String {
        let mut words = words.to_vec();
        words.resize(filled, 0);
        words.resize(all, 43690);
        words.iter().map(|word| format!("{word:04x}")).collect()
    };
    let (nodes, rows) = (words(nodes, filled_nodes, 16_385), words(rows, filled_rows, 1057));
    format!("nodes {nodes} rows {rows}")
}

#[test]
fn extraction_fills_what_it_is_lent() {
    let lend = |nodes, rows| Record::Extract(Lent { nodes, rows });
    let found = answers(&[
        Record::Tables,
        lend(16_385, 1057),
        lend(16_384, 1055),
        lend(0, 1056),
        Record::Tables,
        lend(16_384, 1056),
        Record::Tables,
    ]);
    let unwritten = tables(&[], 0, &[], 0);
    let nodes = [0, 0, 0, 0, 0, 1, 0, 0, 0, 2, 0, 0, 1, 8];
    let mut row = vec![0; 33];
    (row[0], row[32]) = (1, 3);
    let filled = tables(&nodes, 16_384, &row, 1056);
    let expected = [
        &unwritten,
        "extract 23",
        "extract 23",
        "extract 23",
        &unwritten,
        "extract 0",
        &filled,
    ];
    assert_eq!(found, expected);
}

/// Also the last word of each table; past it nothing.
#[test]
fn words_are_stored() {
    let store = |table, index, word| Record::Word { table, index, word };
    let found = answers(&[
        store(Table::Nodes, 0, 0x1234),
        store(Table::Nodes, 16_384, 0x5678),
        store(Table::Nodes, 16_385, 1),
        store(Table::Nodes, 65_535, 1),
        store(Table::Rows, 1056, 0x9ABC),
        store(Table::Rows, 1057, 1),
        Record::Tables,
    ]);
    assert!(found[..6].iter().all(|line| line == "word"));
    let nodes = format!("1234{}5678", "aaaa".repeat(16_383));
    let rows = format!("{}9abc", "aaaa".repeat(1056));
    assert_eq!(found[6], format!("nodes {nodes} rows {rows}"));
}

/// Register 0 takes the input; what lies past the sheet's comes back as handed.
#[test]
fn a_cycle_run() {
    let odd = Value { unknown: 0xA0, number: 4 };
    let cycle = |inputs: &[Value]| {
        let (lent, inputs) = (Lent::RIGHT, inputs.to_vec());
        let (registers, places) = ([odd; 32], [0, 1, 2, 3, 4, 5, 6, 7]);
        Record::Cycle(Box::new(Cycle { lent, registers, places, inputs }))
    };
    let right = Record::Extract(Lent::RIGHT);
    let seven = Value::known(7);
    let found = answers(&[
        cycle(&[seven]),
        right,
        cycle(&[seven]),
        cycle(&[seven; 255]),
        cycle(&[odd]),
    ]);
    let odd = "04000000a0000000";
    let line = |number: u8, register: &str| {
        let (rest, wires) = (odd.repeat(31), "00000000ffffffff".repeat(32));
        format!("cycle {number} {register}{rest}0001020304050607{wires}")
    };
    let [refused, accepted] =
        [24, 0].map(|n| line(n, if n == 0 { "0700000000000000" } else { odd }));
    let expected = [refused, "extract 0".into(), accepted, line(25, odd), line(0, odd)];
    assert_eq!(found, expected);
}

/// Tables too long, a table that isn't there, records cut short.
#[test]
fn bad_tables() {
    let head = Script::write(&FLIP_FLOP.sheet(), &[]);
    let line = |record: &[u8]| output(&[&head[..], record].concat());
    assert_eq!(line(&[b'X', 0x01, 0x40, 0x21, 0x04]), "extract 23\n");
    for bad in [[b'X', 0x02, 0x40, 0, 0], [b'X', 0, 0, 0x22, 0x04], [b'X', 255, 255, 0, 0]] {
        assert_eq!(line(&bad), "bad script\n");
    }
    assert_eq!(line(&[b'W', 1, 0, 0, 0, 0]), "word\n");
    assert_eq!(line(&[b'W', 2, 0, 0, 0, 0]), "bad script\n");
    assert_eq!(line(&[b'W', 1, 0, 0, 0]), "bad script\n");
    let mut cycle = [0; 1 + 4 + 256 + 8 + 1 + 8];
    (cycle[0], cycle[269]) = (b'K', 1);
    assert!(line(&cycle).starts_with("cycle 23 "));
    assert_eq!(line(&cycle[..277]), "bad script\n");
    for (place, word) in [(2, 0x41), (4, 5), (269, 2)] {
        let mut bad = cycle;
        bad[place] = word;
        assert_eq!(line(&bad), "bad script\n", "{place}");
    }
}
