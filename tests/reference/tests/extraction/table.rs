//! Number 24, one case after the other.

use reference::build::{CLK, at_clk, later, v};
use reference::compiler::Compiler;
use reference::module::{Module, Stmt};

use crate::short::{lane, module, tables};
use reference::value::Value;

/// Two threads of two waits each, places 0 and 2: widths 1, 8; registers r, s of 8 and t of 4
/// that nobody writes; a wire of 8. Nodes 0 to 5 are the variables', in order.
fn sample() -> Module {
    let thread = |r| at_clk(vec![later(r, v(1)), Stmt::posedge(CLK)]);
    module(&[1, 8], &[8, 8, 4], vec![(8, v(1))], vec![thread(2), thread(3)])
}

/// The number of a cycle run on the tables of the sample after these stores.
fn number(node_words: &[(usize, u16)], row_words: &[(usize, u16)]) -> u8 {
    let module = sample();
    let (mut nodes, mut rows) = tables(&module);
    node_words.iter().for_each(|&(index, word)| nodes[index] = word);
    row_words.iter().for_each(|&(index, word)| rows[index] = word);
    let reading = Ok(module);
    let mut lane = lane(&[8, 8, 4].map(Value::x), &[0, 2]);
    let given = [Value::known(7)];
    let before = lane.clone();
    let outcome = Compiler::new(&reading).cycle(&nodes, &rows, &mut lane, &given);
    if outcome.is_err() {
        assert_eq!((lane.registers, lane.places), (before.registers, before.places));
        assert_eq!(lane.wires, [Value::NOWHERE; 32]);
    }
    outcome.err().unwrap_or(0)
}

/// The number after a node was stored; nodes from 100 on are free.
fn node(index: usize, words: [u16; 4]) -> u8 {
    let stores: Vec<(usize, u16)> =
        words.into_iter().enumerate().map(|(word, value)| (4 * index + word, value)).collect();
    number(&stores, &[])
}

/// The first of two thread's rows with an entry stored, nodes 100 and 101 being these.
fn entry(register: usize, id: u16, nodes: [[u16; 4]; 2]) -> u8 {
    let mut stores = Vec::new();
    for (index, words) in (100..).zip(nodes) {
        stores.extend((0..4).map(|word| (4 * index + word, words[word])));
    }
    number(&stores, &[(register, id)])
}

const NONE: [u16; 4] = [0; 4];
const PLACE: usize = 32;

#[test]
fn kinds() {
    assert_eq!(number(&[], &[]), 0);
    for kind in (3..=10).chain(21..=39).chain([41, 255, 256, 65535]) {
        assert_eq!(node(100, [kind, 0, 0, 0]), 24, "{kind}");
    }
    for kind in (13..=20).chain([40]) {
        assert_eq!(node(100, [kind, 1, 1, 1]), 0, "{kind}");
    }
    // All 4,096 are judged.
    assert_eq!(node(4095, [3, 0, 0, 0]), 24);
    assert_eq!(node(4095, [11, 4094, 0, 0]), 0);
}

#[test]
fn variables() {
    assert_eq!(node(100, [0, 5, 0, 0]), 0);
    assert_eq!(node(100, [0, 6, 0, 0]), 24);
    assert_eq!(node(100, [0, 256, 0, 0]), 24);
    // Unused words aren't judged.
    assert_eq!(node(100, [0, 5, 65535, 65535]), 0);
}

#[test]
fn constants() {
    for (words, expected) in [
        ([1, 8, 255, 0], 0),
        ([1, 8, 256, 0], 24),
        ([1, 8, 0, 1], 24),
        ([1, 16, 65535, 0], 0),
        ([1, 17, 65535, 1], 0),
        ([1, 17, 65535, 2], 24),
        ([1, 32, 65535, 65535], 0),
        ([1, 1, 2, 0], 24),
        ([1, 0, 0, 0], 24),
        ([1, 33, 0, 0], 24),
        ([1, 264, 0, 0], 24),
        ([2, 1, 9, 9], 0),
        ([2, 32, 0, 0], 0),
        ([2, 0, 0, 0], 24),
        ([2, 33, 0, 0], 24),
        ([2, 257, 0, 0], 24),
    ] {
        assert_eq!(node(100, words), expected, "{words:?}");
    }
}

/// Operands are earlier and have equal widths; unused ones aren't judged.
#[test]
fn operands() {
    for (words, expected) in [
        ([11, 99, 0, 0], 0),
        ([11, 100, 0, 0], 24),
        ([11, 101, 0, 0], 24),
        ([11, 1, 4096, 65535], 0),
        ([12, 4, 100, 100], 0),
        ([12, 4096, 0, 0], 24),
        ([13, 1, 2, 65535], 0),
        ([13, 1, 100, 0], 24),
        ([13, 100, 1, 0], 24),
        ([13, 1, 4, 0], 24),
        ([18, 1, 4, 0], 24),
        ([19, 4, 4, 0], 0),
        // ?: and branch: any condition, equal arms.
        ([20, 4, 1, 2], 0),
        ([20, 4, 1, 4], 24),
        ([20, 100, 1, 1], 24),
        ([20, 1, 1, 100], 24),
        ([40, 4, 1, 2], 0),
        ([40, 4, 1, 4], 24),
        ([40, 100, 1, 1], 24),
        ([40, 1, 100, 100], 24),
    ] {
        assert_eq!(node(100, words), expected, "{words:?}");
    }
    assert_eq!(node(0, [11, 0, 0, 0]), 24);
    assert_eq!(node(0, [2, 1, 0, 0]), 0);
}

#[test]
fn register_entries() {
    assert_eq!(entry(0, 1, [NONE; 2]), 0);
    assert_eq!(entry(0, 0, [NONE; 2]), 24);
    assert_eq!(entry(0, 4, [NONE; 2]), 24);
    assert_eq!(entry(0, 4095, [NONE; 2]), 24);
    assert_eq!(entry(0, 4096, [NONE; 2]), 24);
    assert_eq!(entry(0, 65535, [NONE; 2]), 24);
    assert_eq!(entry(0, 100, [[2, 8, 0, 0], NONE]), 0);
    // !, == and < give one bit, ~ and + the operands' width.
    assert_eq!(entry(0, 100, [[12, 1, 0, 0], NONE]), 24);
    assert_eq!(entry(0, 100, [[18, 1, 1, 0], NONE]), 24);
    assert_eq!(entry(0, 100, [[16, 1, 1, 0], NONE]), 0);
    // Registers that the thread doesn't write, and those past the last.
    for register in [1, 2, 3, 31] {
        assert_eq!(entry(register, 65535, [NONE; 2]), 0);
    }
    // Rows past the sheet's waits aren't read.
    assert_eq!(number(&[], &[(3 * 33 + 1, 65535)]), 24);
    assert_eq!(number(&[], &[(4 * 33, 65535), (4 * 33 + PLACE, 65535)]), 0);
}

#[test]
fn place_entries() {
    let place = |words| entry(PLACE, 100, [words, NONE]);
    assert_eq!(place([1, 8, 0, 0]), 0);
    assert_eq!(place([1, 8, 2, 0]), 0);
    assert_eq!(place([1, 8, 1, 0]), 24);
    assert_eq!(place([1, 8, 3, 0]), 24);
    assert_eq!(place([1, 7, 0, 0]), 24);
    assert_eq!(place([1, 9, 0, 0]), 24);
    assert_eq!(place([2, 8, 0, 0]), 24);
    assert_eq!(place([0, 1, 0, 0]), 24);
    assert_eq!(place([16, 1, 1, 0]), 24);
    assert_eq!(entry(PLACE, 4096, [NONE; 2]), 24);
    let branch = |first: [u16; 4], branch: [u16; 4]| entry(PLACE, 101, [first, branch]);
    assert_eq!(branch([1, 8, 2, 0], [40, 0, 100, 100]), 0);
    assert_eq!(branch([1, 8, 1, 0], [40, 0, 100, 100]), 24);
    assert_eq!(branch([1, 8, 2, 0], [40, 0, 100, 1]), 24);
    assert_eq!(branch([1, 8, 2, 0], [40, 0, 1, 100]), 24);
    assert_eq!(branch([1, 8, 2, 0], [20, 0, 100, 100]), 24);
}

/// The waits are those of the row's own thread.
#[test]
fn waits_of_the_thread() {
    let first = at_clk(vec![]);
    let second = at_clk(vec![Stmt::posedge(CLK)]);
    let module = module(&[1], &[8], vec![], vec![first, second]);
    let (nodes, mut rows) = tables(&module);
    // Rows: thread 0 at 0; thread 1 at 0 and 1. Nodes 2 to 4 are the places 0, 1, 0.
    let reading = Ok(module);
    let compiler = Compiler::new(&reading);
    let mut run = |row: usize, id| {
        let before = rows[33 * row + PLACE];
        rows[33 * row + PLACE] = id;
        let outcome = compiler.cycle(&nodes, &rows, &mut lane(&[Value::x(8)], &[0, 1]), &[]);
        rows[33 * row + PLACE] = before;
        outcome.err().unwrap_or(0)
    };
    assert_eq!((run(0, 2), run(0, 4), run(0, 3)), (0, 0, 24));
    assert_eq!((run(1, 2), run(1, 3), run(2, 3)), (0, 0, 0));
}
