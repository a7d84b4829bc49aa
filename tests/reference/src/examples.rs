//! Examples 3.2.1 to 3.2.8 of source document 003 as scripts: a state is loaded, an instant given, and the
//! choices are made in each order that 003 follows; where there are two outcomes, both are there.

use crate::build::{CLK, add, any, at_clk, known, later, mux, num, set, sheet, state, v};
use crate::module::Stmt;
use crate::replay::{Record, Script};
use crate::sheet::read;

/// The values before, the inputs, and orders of choices, each from the same state.
type Case<'a> = (&'a [Option<u32>], &'a [u32], &'a [&'a [u8]]);

/// From example 3.2.1 on.
pub fn scripts() -> Vec<Vec<u8>> {
    vec![
        adder(),
        disjoint(),
        two_outcomes(),
        latch(),
        flip_flop(),
        race(),
        multiplexer(),
        apart(),
    ]
}

fn script(sheet: &[u8], cases: &[Case]) -> Vec<u8> {
    let reading = read(sheet);
    let mut records = vec![Record::Read, Record::List];
    for (values, inputs, orders) in cases {
        for order in *orders {
            records.push(Record::Load(Box::new(state(&reading, values))));
            records.push(Record::Instant(known(inputs)));
            records.push(Record::Dump);
            for &choice in *order {
                records.extend([Record::Choose(0, choice), Record::Dump]);
            }
            records.push(Record::Plain(0, 0));
        }
    }
    Script::write(sheet, &records)
}

fn adder() -> Vec<u8> {
    let [b, c, a] = [1, 2, 3];
    let thread = Stmt::sequence(any(&[b, c]), set(a, add(v(b), v(c))));
    let sheet = sheet(&[1, 8, 8], &[8], vec![], vec![thread]);
    script(&sheet, &[(&[Some(0), Some(0), Some(0), None], &[0, 2, 0], &[&[0, 0]])])
}

fn disjoint() -> Vec<u8> {
    let [b, c, a1, a2] = [1, 2, 3, 4];
    let first = Stmt::sequence(any(&[b, c]), set(a1, add(v(b), v(c))));
    let second = Stmt::sequence(any(&[b]), set(a2, add(v(b), num(8, 1))));
    let sheet = sheet(&[1, 8, 8], &[8, 8], vec![], vec![first, second]);
    let before = [Some(0), Some(0), Some(0), None, None];
    script(&sheet, &[(&before, &[0, 2, 0], &[&[0, 1, 1, 0], &[1, 1, 0, 0]])])
}

fn two_outcomes() -> Vec<u8> {
    let [b, a, c] = [1, 2, 3];
    let first = Stmt::sequence(any(&[b, c]), set(a, add(v(b), v(c))));
    let second = Stmt::sequence(any(&[b]), set(c, add(v(b), num(8, 1))));
    let sheet = sheet(&[1, 8], &[8, 8], vec![], vec![first, second]);
    let orders: [&[u8]; 3] = [&[0, 1, 0, 1], &[1, 0, 0, 1], &[0, 0, 1, 0, 0, 1]];
    script(&sheet, &[(&[Some(0), Some(0), None, None], &[0, 2], &orders)])
}

fn latch() -> Vec<u8> {
    let [d, q] = [1, 2];
    let thread = Stmt::sequence(any(&[CLK, d]), Stmt::when(v(CLK), set(q, v(d))));
    let sheet = sheet(&[1, 8], &[8], vec![], vec![thread]);
    let high: [&[u8]; 1] = [&[0, 0, 0]];
    let low: [&[u8]; 1] = [&[0, 0]];
    script(
        &sheet,
        &[
            (&[Some(0), Some(5), Some(7)], &[1, 5], &high),
            (&[Some(1), Some(5), Some(5)], &[1, 9], &high),
            (&[Some(1), Some(9), Some(9)], &[0, 9], &low),
            (&[Some(0), Some(9), Some(9)], &[0, 3], &low),
        ],
    )
}

fn flip_flop() -> Vec<u8> {
    let [d, q] = [1, 2];
    let sheet = sheet(&[1, 8], &[8], vec![], vec![at_clk(vec![set(q, v(d))])]);
    script(
        &sheet,
        &[
            (&[Some(0), Some(5), Some(7)], &[1, 6], &[&[0, 0]]),
            (&[Some(1), Some(5), Some(7)], &[1, 6], &[&[]]),
            (&[Some(1), Some(5), Some(7)], &[0, 6], &[&[]]),
        ],
    )
}

fn race() -> Vec<u8> {
    let [d, i, q] = [1, 2, 3];
    let threads = vec![at_clk(vec![set(i, v(d))]), at_clk(vec![set(q, v(i))])];
    let sheet = sheet(&[1, 8], &[8, 8], vec![], threads);
    let before = [Some(0), Some(5), Some(3), Some(1)];
    script(&sheet, &[(&before, &[1, 5], &[&[0, 1, 0, 1], &[1, 0, 1, 0]])])
}

fn multiplexer() -> Vec<u8> {
    let [a, b, c, q] = [1, 2, 3, 4];
    let thread = at_clk(vec![later(q, mux(v(a), v(b), v(c)))]);
    let sheet = sheet(&[1, 1, 8, 8], &[8], vec![], vec![thread]);
    let before = [Some(0), Some(0), Some(5), Some(6), Some(0)];
    let orders: [&[u8]; 1] = [&[0, 0, 255]];
    script(&sheet, &[(&before, &[1, 0, 5, 6], &orders), (&before, &[1, 1, 5, 6], &orders)])
}

fn apart() -> Vec<u8> {
    let [a, b, c, q, d] = [1, 2, 3, 4, 5];
    let choose = Stmt::if_else(v(a), set(d, v(b)), set(d, v(c)));
    let threads = vec![at_clk(vec![later(q, v(d))]), Stmt::sequence(any(&[a, b, c]), choose)];
    let sheet = sheet(&[1, 1, 8, 8], &[8, 8], vec![], threads);
    let before = [Some(0), Some(0), Some(5), Some(6), Some(1), Some(6)];
    let old_first: &[u8] = &[0, 0, 1, 1, 1, 1, 255];
    let new_first: &[u8] = &[1, 1, 1, 1, 0, 0, 255];
    script(&sheet, &[(&before, &[1, 1, 5, 6], &[old_first, new_first])])
}
