//! Node numbers and rows, worked out by hand.

use reference::build::{CLK, add, at_clk, later, mux, num, set, v};
use reference::module::{Expr, Module, Stmt};
use reference::samples::FLIP_FLOP;
use reference::sheet::read;

use crate::short::{module, not, tables};

/// The tables are these words and then 0.
fn holds(module: &Module, nodes: &[[u16; 4]], rows: &[(&[u16], u16)]) {
    let (found_nodes, found_rows) = tables(module);
    let found: Vec<&[u16]> = found_nodes.chunks(4).collect();
    for (index, node) in nodes.iter().enumerate() {
        assert_eq!(found[index], node, "node {index}");
    }
    assert!(found_nodes[4 * nodes.len()..].iter().all(|&word| word == 0));
    for (index, (registers, place)) in rows.iter().enumerate() {
        let row = &found_rows[33 * index..33 * (index + 1)];
        let mut expected = [0; 33];
        expected[..registers.len()].copy_from_slice(registers);
        expected[32] = *place;
        assert_eq!(row, expected, "row {index}");
    }
    assert!(found_rows[33 * rows.len()..].iter().all(|&word| word == 0));
}

#[test]
fn flip_flop() {
    let module = read(&FLIP_FLOP.sheet()).expect("read");
    let nodes = [[0, 0, 0, 0], [0, 1, 0, 0], [0, 2, 0, 0], [1, 8, 0, 0]];
    holds(&module, &nodes, &[(&[1], 3)]);
}

/// Inputs 0 and 1, register 2: `@(posedge clk) if (d) r <= r + 5; else r <= x;`
#[test]
fn if_else() {
    let [d, r] = [1, 2];
    let unknown = Expr::Unknown { width: 8 };
    let body = Stmt::if_else(v(d), later(r, add(v(r), num(8, 5))), later(r, unknown));
    let module = module(&[1, 8], &[8], vec![], vec![at_clk(vec![body])]);
    let nodes = [
        [0, 0, 0, 0],
        [0, 1, 0, 0],
        [0, 2, 0, 0],
        // The held leg: 5, the sum, the place.
        [1, 8, 5, 0],
        [16, 2, 3, 0],
        [1, 8, 0, 0],
        // The other leg: x, the place.
        [2, 8, 0, 0],
        [1, 8, 0, 0],
        // The register, then the place.
        [40, 1, 4, 6],
        [40, 1, 5, 7],
    ];
    holds(&module, &nodes, &[(&[8], 9)]);
}

/// A plain assignment is seen by what follows, a later one isn't; registers that the thread
/// doesn't write stay their own variables; branches come for both written ones.
#[test]
fn both_kinds() {
    let [d, p, q, s] = [1, 2, 3, 4];
    let body = vec![
        set(p, not(v(p))),
        later(q, v(p)),
        Stmt::when(v(q), later(q, v(s))),
        Stmt::posedge(CLK),
        set(p, v(d)),
    ];
    let module = module(&[1, 8], &[8, 8, 8], vec![], vec![at_clk(body)]);
    let nodes = [
        [0, 0, 0, 0],
        [0, 1, 0, 0],
        [0, 2, 0, 0],
        [0, 3, 0, 0],
        [0, 4, 0, 0],
        // From wait 0: ~p, which p holds and q takes; if (q) q <= s; wait 5.
        [11, 2, 0, 0],
        [1, 8, 5, 0],
        [1, 8, 5, 0],
        [40, 3, 5, 5],
        [40, 3, 4, 5],
        [40, 3, 6, 7],
        // From wait 5: p = d; wait 0.
        [1, 8, 0, 0],
    ];
    holds(&module, &nodes, &[(&[8, 9, 4], 10), (&[1, 3, 4], 11)]);
}

/// Nodes are never shared, halves of constants low first, wires are variables.
#[test]
fn expressions() {
    let [d, r, w] = [1, 2, 3];
    let one = num(32, 0x1234_5678);
    let thread =
        at_clk(vec![later(r, mux(num(1, 1), add(one.clone(), one), v(w))), later(r, v(d))]);
    let module = module(&[1, 32], &[32], vec![(32, v(d))], vec![thread]);
    let nodes = [
        [0, 0, 0, 0],
        [0, 1, 0, 0],
        [0, 2, 0, 0],
        [0, 3, 0, 0],
        [1, 1, 1, 0],
        [1, 32, 0x5678, 0x1234],
        [1, 32, 0x5678, 0x1234],
        [16, 5, 6, 0],
        [20, 4, 7, 3],
        [1, 8, 0, 0],
    ];
    holds(&module, &nodes, &[(&[1], 9)]);
}

/// `@ while (d) @` and a wait that nothing reaches: 0 wait, 1 ifnot 4, 2 wait, 3 go 1,
/// then 4 wait, 5 go 4, 6 wait, 7 go 0.
#[test]
fn loops_and_unreachable_waits() {
    let wait = || Stmt::posedge(CLK);
    let body = vec![Stmt::while_loop(v(1), wait()), Stmt::forever(wait()), wait()];
    let module = module(&[1, 8], &[8], vec![], vec![at_clk(body)]);
    let nodes = [
        [0, 0, 0, 0],
        [0, 1, 0, 0],
        [0, 2, 0, 0],
        // From 0 and from 2: again the loop's condition.
        [1, 8, 2, 0],
        [1, 8, 4, 0],
        [40, 1, 3, 4],
        [1, 8, 2, 0],
        [1, 8, 4, 0],
        [40, 1, 6, 7],
        // From 4 to 4, from 6 to 0.
        [1, 8, 4, 0],
        [1, 8, 0, 0],
    ];
    holds(&module, &nodes, &[(&[2], 5), (&[2], 8), (&[2], 9), (&[2], 10)]);
}

/// Rows and nodes go on from thread to thread; each thread has branches for its own only.
#[test]
fn two_threads() {
    let [d, a, b] = [1, 2, 3];
    let thread = |r, value| at_clk(vec![Stmt::when(v(d), later(r, v(value)))]);
    let module = module(&[1, 8], &[8, 8], vec![], vec![thread(a, b), thread(b, a)]);
    let nodes = [
        [0, 0, 0, 0],
        [0, 1, 0, 0],
        [0, 2, 0, 0],
        [0, 3, 0, 0],
        [1, 8, 0, 0],
        [1, 8, 0, 0],
        [40, 1, 3, 2],
        [40, 1, 4, 5],
        [1, 8, 0, 0],
        [1, 8, 0, 0],
        [40, 1, 2, 3],
        [40, 1, 8, 9],
    ];
    holds(&module, &nodes, &[(&[6, 3], 7), (&[2, 10], 11)]);
}
