//! The cycle run: the order of its numbers, and what it gives.

use reference::build::{at_clk, later, set, sheet, v};
use reference::compiler::{Compiler, Lane};
use reference::extraction::{NODE_WORDS, ROW_WORDS};
use reference::module::Stmt;
use reference::sheet::read;

use crate::short::{lane, lent, module, tables};
use reference::value::Value;

const D: u8 = 1;
const R: u8 = 2;

fn known(number: u32) -> Value {
    Value::known(number)
}

/// 23, 1 to 21, 24, 31, 25.
#[test]
fn order() {
    let good = sheet(&[1, 8], &[8], vec![], vec![at_clk(vec![later(R, v(D))])]);
    let refused = sheet(&[1, 8], &[8], vec![], vec![later(R, v(D))]);
    let extracted = tables(&read(&good).expect("read"));
    let unfit = lane(&[known(256)], &[0]);
    let fit = lane(&[known(255)], &[0]);
    let run = |sheet: &[u8],
               tables: &(Vec<u16>, Vec<u16>),
               lengths: (usize, usize),
               lane: &Lane,
               inputs: &[Value]| {
        let reading = read(sheet);
        let (nodes, rows) = (&tables.0[..lengths.0], &tables.1[..lengths.1]);
        let outcome = Compiler::new(&reading).cycle(nodes, rows, &mut lane.clone(), inputs);
        outcome.err().unwrap_or(0)
    };
    let right = (NODE_WORDS, ROW_WORDS);
    let unfilled = lent();
    assert_eq!(run(&[], &unfilled, (NODE_WORDS, ROW_WORDS - 1), &unfit, &[]), 23);
    assert_eq!(run(&[], &unfilled, (0, ROW_WORDS), &unfit, &[]), 23);
    assert_eq!(run(&[], &unfilled, right, &unfit, &[]), 2);
    assert_eq!(run(&refused, &unfilled, right, &unfit, &[]), 16);
    assert_eq!(run(&good, &unfilled, right, &unfit, &[]), 24);
    assert_eq!(run(&good, &extracted, right, &unfit, &[]), 31);
    assert_eq!(run(&good, &extracted, right, &fit, &[]), 25);
    assert_eq!(run(&good, &extracted, right, &fit, &[known(256)]), 25);
    assert_eq!(run(&good, &extracted, right, &fit, &[known(1), known(1)]), 25);
    assert_eq!(run(&good, &extracted, right, &fit, &[known(255)]), 0);
    // Places that are no waits: inside the thread and outside.
    for place in [1, 2, 3, 255] {
        let lane = lane(&[known(255)], &[place]);
        assert_eq!(run(&good, &extracted, right, &lane, &[known(1)]), 31, "{place}");
    }
    // Marks that are too wide, and a number under a mark.
    let x = Value::x(8);
    for unfit in [Value { number: 0, unknown: 256 }, Value { number: 6, unknown: 4 }] {
        assert_eq!(run(&good, &extracted, right, &lane(&[unfit], &[0]), &[unfit]), 31);
        assert_eq!(run(&good, &extracted, right, &lane(&[x], &[0]), &[unfit]), 25);
    }
    let some = Value { number: 2, unknown: 4 };
    assert_eq!(run(&good, &extracted, right, &lane(&[some], &[0]), &[x]), 0);
}

/// Wires settle before the rise and after it. The register that nobody writes keeps its value, and what
/// lies past the sheet's comes back as handed.
#[test]
fn what_it_gives() {
    let [d, r, s, kept, w] = [1, 2, 3, 4, 5];
    let body = at_clk(vec![later(r, v(w)), later(s, v(kept))]);
    let wires = vec![(8, v(d)), (8, v(r)), (8, v(w + 1))];
    let module = module(&[1, 8], &[8, 8, 8], wires, vec![body]);
    let (nodes, rows) = tables(&module);
    let some = Value { number: 99, unknown: 12 };
    let mut lane = lane(&[known(1), known(2), some], &[0]);
    let before = lane.clone();
    let reading = Ok(module);
    Compiler::new(&reading).cycle(&nodes, &rows, &mut lane, &[known(9)]).expect("accepted");
    assert_eq!(lane.registers[..3], [known(9), some, some]);
    assert_eq!(lane.registers[3..], before.registers[3..]);
    assert_eq!(lane.places, before.places);
    assert_eq!(lane.wires[..3], [known(9), known(9), known(9)]);
    assert_eq!(lane.wires[3..], [Value::NOWHERE; 29]);
}

/// A branch takes its second arm on x, where ?: keeps the bits in which both arms agree.
#[test]
fn branches_on_x() {
    let body = Stmt::if_else(v(D), set(R, v(D)), set(R, v(R)));
    let module = module(&[1, 8], &[8], vec![], vec![at_clk(vec![body])]);
    let (mut nodes, rows) = tables(&module);
    let reading = Ok(module);
    let run = |nodes: &[u16], input| {
        let mut lane = lane(&[known(3)], &[0]);
        let outcome = Compiler::new(&reading).cycle(nodes, &rows, &mut lane, &[input]);
        outcome.map(|()| lane.registers[0])
    };
    let some = Value { number: 0, unknown: 6 };
    assert_eq!(run(&nodes, Value::x(8)), Ok(known(3)));
    assert_eq!(run(&nodes, some), Ok(known(3)));
    // Nodes 3 and 4 are places, 5 the register's branch.
    assert_eq!(nodes[20], 40);
    nodes[20] = 20;
    assert_eq!(run(&nodes, Value::x(8)), Ok(Value::x(8)));
    assert_eq!(run(&nodes, some), Ok(Value { number: 0, unknown: 7 }));
}

/// Every node that names the clock counts as 1.
#[test]
fn the_clock_counts_as_1() {
    let module = module(&[1, 1], &[1], vec![], vec![at_clk(vec![later(R, v(D))])]);
    let (mut nodes, mut rows) = tables(&module);
    nodes[4 * 50..4 * 51].copy_from_slice(&[12, 0, 0, 0]);
    nodes[4 * 70..4 * 71].copy_from_slice(&[16, 49, 50, 0]);
    let reading = Ok(module);
    for (entry, expected) in [(0, 1), (49, 1), (4095, 1), (50, 0), (70, 1)] {
        rows[0] = entry;
        let mut lane = lane(&[Value::x(1)], &[0]);
        let inputs = [known(0)];
        Compiler::new(&reading).cycle(&nodes, &rows, &mut lane, &inputs).expect("accepted");
        assert_eq!(lane.registers[0], known(expected), "{entry}");
    }
}
