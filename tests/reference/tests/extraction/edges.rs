//! Number 21 at its edge, the order of the numbers, and what a refusal leaves.

use reference::build::{CLK, at_clk, later, set, sheet, v};
use reference::compiler::Compiler;
use reference::extraction::{NODE_WORDS, ROW_WORDS, extract};
use reference::module::{Expr, Module, Stmt};
use reference::sheet::read;

use crate::short::{lent, module, not, number};

const D: u8 = 1;
const R: u8 = 2;

/// `~` over and over, so many nodes.
fn inversions(nodes: usize) -> Expr {
    (0..nodes).fold(v(D), |e, _| not(e))
}

/// A module of exactly so many nodes, 3,073 or more. Ten ifs make 3,070 besides the three
/// variables' ones; inversions in front of them make the rest.
fn of_nodes(nodes: usize) -> Module {
    let mut rest = nodes - 3073;
    let mut front = Vec::new();
    while rest > 0 {
        let share = rest.min(15);
        front.push(later(R, inversions(share)));
        rest -= share;
    }
    let mut body: Vec<Stmt> = front.chunks(20).map(|part| Stmt::list(part.to_vec())).collect();
    body.extend(vec![Stmt::when(v(D), later(R, v(D))); 10]);
    module(&[1, 8], &[8], vec![], vec![at_clk(body)])
}

#[test]
fn nodes_21() {
    let count = |nodes| extract(&of_nodes(nodes)).map(|extraction| extraction.nodes.len());
    for nodes in [3073, 4000, 4095, 4096] {
        assert_eq!(count(nodes), Ok(nodes));
    }
    for nodes in [4097, 4098, 4200] {
        assert_eq!(count(nodes), Err(21));
    }
}

/// Legs double at each if: the walk stops instead of going on for ever.
#[test]
fn the_walk_stops() {
    let ifs = |count| {
        let statement = Stmt::when(v(D), later(R, v(D)));
        number(&module(&[1, 8], &[8], vec![], vec![at_clk(vec![statement; count])]))
    };
    assert_eq!(ifs(9), 0);
    assert_eq!(ifs(50), 21);
}

#[test]
fn lowest_first() {
    let plain = |wait: Stmt| {
        let first = Stmt::sequence(wait.clone(), set(R, v(D)));
        vec![first, Stmt::sequence(wait, Stmt::when(v(R), Stmt::Empty))]
    };
    let both = |threads| number(&module(&[1, 8], &[8, 8], vec![], threads));
    assert_eq!(both(plain(Stmt::Empty)), 14);
    assert_eq!(both(vec![later(R, v(D))]), 16);
    let clock = Stmt::when(v(CLK), Stmt::Empty);
    assert_eq!(both(vec![at_clk(vec![Stmt::forever(clock.clone())])]), 17);
    assert_eq!(both(vec![at_clk([vec![clock], vec![Stmt::posedge(CLK); 40]].concat())]), 18);
}

/// 23 comes before all others; every refusal leaves the lent words alone.
#[test]
fn refusals_leave_the_words() {
    let swap = vec![at_clk(vec![set(2, v(3))]), at_clk(vec![set(3, v(2))])];
    let refused = sheet(&[1, 8], &[8, 8], vec![], swap);
    let good = sheet(&[1, 8], &[8], vec![], vec![at_clk(vec![later(R, v(D))])]);
    for (sheet, number) in [(&refused, 14), (&vec![0], 3), (&good, 0)] {
        let reading = read(sheet);
        let compiler = Compiler::new(&reading);
        for (a, b) in [(0, 0), (1, 0), (NODE_WORDS, ROW_WORDS - 1), (NODE_WORDS - 1, ROW_WORDS)]
        {
            let (mut nodes, mut rows) = lent();
            assert_eq!(compiler.extract(&mut nodes[..a], &mut rows[..b]), Err(23));
            assert_eq!((nodes, rows), lent());
        }
        let (mut nodes, mut rows) = lent();
        let found = compiler.extract(&mut nodes, &mut rows).err().unwrap_or(0);
        assert_eq!(found, number);
        assert_eq!((nodes, rows) == lent(), number != 0);
    }
    let reading = Ok(of_nodes(4097));
    let (mut nodes, mut rows) = lent();
    assert_eq!(Compiler::new(&reading).extract(&mut nodes, &mut rows), Err(21));
    assert_eq!((nodes, rows), lent());
    // One word more than asked for.
    let (mut nodes, mut rows) = lent();
    nodes.push(0);
    assert_eq!(Compiler::new(&reading).extract(&mut nodes, &mut rows), Err(23));
    nodes.pop();
    rows.push(0);
    assert_eq!(Compiler::new(&reading).extract(&mut nodes, &mut rows), Err(23));
}
