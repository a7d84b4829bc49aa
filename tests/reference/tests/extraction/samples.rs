//! Document 01's samples, and the bench modules.

use reference::build::{CLK, at_clk, later, set, v};
use reference::extraction::extract;
use reference::module::Stmt;
use reference::samples;
use reference::sheet::read;

use crate::short::of_threads;

const A: u8 = 2;
const B: u8 = 3;

/// Two threads `a <= b`, `b <= a`; with plain assignment: 14.
#[test]
fn swap() {
    let swap = |write: fn(u8, reference::module::Expr) -> Stmt| {
        of_threads(2, vec![at_clk(vec![write(A, v(B))]), at_clk(vec![write(B, v(A))])])
    };
    assert_eq!(swap(later), 0);
    assert_eq!(swap(set), 14);
}

/// All four are accepted, with so many nodes and rows.
#[test]
fn bench_modules() {
    let sizes = samples::ALL.map(|bench| {
        let module = read(&bench.sheet()).expect("an accepted sheet");
        let extraction = extract(&module).expect("an extractable module");
        (bench.name, extraction.nodes.len(), extraction.rows.len())
    });
    let expected = [("dff", 4, 1), ("counter", 11, 1), ("watchdog", 96, 6), ("pipe8", 196, 8)];
    assert_eq!(sizes, expected);
}

#[test]
fn waits_that_follow_each_other() {
    let thread = Stmt::sequence(Stmt::posedge(CLK), Stmt::posedge(CLK));
    assert_eq!(of_threads(1, vec![thread]), 0);
}
