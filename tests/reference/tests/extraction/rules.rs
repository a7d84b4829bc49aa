//! Each of 12 to 20 on a small module, beside the nearest one that is accepted.

use reference::build::{CLK, add, any, at_clk, later, num, set, v};
use reference::module::{Edge, Expr, Stmt, Term};

use crate::short::{module, number, of_thread, of_threads};

const D: u8 = 1;
const R: u8 = 2;
const S: u8 = 3;

fn wait() -> Stmt {
    Stmt::posedge(CLK)
}

#[test]
fn two_writers_12() {
    let two = |second| vec![at_clk(vec![later(R, v(D))]), at_clk(vec![later(second, v(D))])];
    assert_eq!(of_threads(2, two(R)), 12);
    assert_eq!(of_threads(2, two(S)), 0);
    // One thread may write it twice; unreachable code counts.
    assert_eq!(of_thread(at_clk(vec![later(R, v(D)), later(R, v(S))])), 0);
    let behind =
        Stmt::sequence(Stmt::forever(Stmt::sequence(wait(), later(S, v(D)))), later(R, v(D)));
    assert_eq!(of_threads(2, vec![at_clk(vec![later(R, v(D))]), behind]), 12);
}

#[test]
fn both_ways_13() {
    assert_eq!(of_thread(at_clk(vec![set(R, v(D)), later(R, v(D))])), 13);
    assert_eq!(of_thread(at_clk(vec![set(R, v(D)), later(S, v(D))])), 0);
    assert_eq!(of_thread(at_clk(vec![set(R, v(D)), set(R, v(D))])), 0);
    // By two threads it is 12.
    assert_eq!(
        of_threads(1, vec![at_clk(vec![set(R, v(D))]), at_clk(vec![later(R, v(D))])]),
        12
    );
}

#[test]
fn plain_read_14() {
    let reader = |value| vec![at_clk(vec![set(R, v(R))]), at_clk(vec![later(S, value)])];
    assert_eq!(of_threads(2, reader(v(R))), 14);
    assert_eq!(of_threads(2, reader(v(S))), 0);
    // In a condition, and by a wire.
    let condition = Stmt::when(v(R), later(S, v(D)));
    assert_eq!(of_threads(2, vec![at_clk(vec![set(R, v(D))]), at_clk(vec![condition])]), 14);
    let of_wire = |write: fn(u8, Expr) -> Stmt| {
        number(&module(&[1, 8], &[8], vec![(8, v(R))], vec![at_clk(vec![write(R, v(D))])]))
    };
    assert_eq!(of_wire(set), 14);
    assert_eq!(of_wire(later), 0);
    // A wait names it and doesn't read it.
    let waits = |first| vec![at_clk(vec![set(R, v(D))]), Stmt::sequence(first, wait())];
    assert_eq!(of_threads(2, waits(any(&[R]))), 15);
    assert_eq!(of_threads(2, waits(wait())), 0);
}

#[test]
fn other_wait_15() {
    let waits = |terms: &[(Edge, u8)]| {
        let term = |&(edge, variable)| Term { edge, variable };
        let thread = Stmt::Wait(terms.iter().map(term).collect());
        number(&module(&[1, 1], &[8], vec![], vec![thread]))
    };
    assert_eq!(waits(&[(Edge::Posedge, CLK)]), 0);
    assert_eq!(waits(&[(Edge::Negedge, CLK)]), 15);
    assert_eq!(waits(&[(Edge::Any, CLK)]), 15);
    assert_eq!(waits(&[(Edge::Posedge, D)]), 15);
    assert_eq!(waits(&[(Edge::Posedge, CLK), (Edge::Posedge, CLK)]), 15);
}

#[test]
fn no_first_wait_16() {
    let body = later(R, v(D));
    assert_eq!(of_thread(Stmt::sequence(body.clone(), wait())), 16);
    assert_eq!(of_thread(Stmt::sequence(wait(), body.clone())), 0);
    assert_eq!(of_thread(Stmt::sequence(Stmt::Empty, wait())), 16);
    assert_eq!(of_thread(Stmt::sequence(Stmt::sequence(wait(), Stmt::Empty), body)), 0);
    assert_eq!(of_thread(Stmt::if_else(v(D), wait(), wait())), 16);
    assert_eq!(of_thread(Stmt::while_loop(num(1, 1), wait())), 16);
    assert_eq!(of_thread(Stmt::forever(wait())), 0);
    assert_eq!(of_thread(Stmt::Empty), 16);
}

#[test]
fn no_sure_wait_17() {
    let looped = |body| of_thread(at_clk(vec![Stmt::while_loop(v(D), body)]));
    assert_eq!(looped(later(R, v(D))), 17);
    assert_eq!(looped(wait()), 0);
    assert_eq!(looped(Stmt::when(v(D), wait())), 17);
    assert_eq!(looped(Stmt::if_else(v(D), wait(), Stmt::Empty)), 17);
    assert_eq!(looped(Stmt::if_else(v(D), wait(), wait())), 0);
    assert_eq!(looped(Stmt::sequence(later(R, v(D)), wait())), 0);
    // A while doesn't surely wait, a forever does, but its own body is judged too.
    assert_eq!(looped(Stmt::while_loop(v(D), wait())), 17);
    assert_eq!(looped(Stmt::forever(wait())), 0);
    assert_eq!(looped(Stmt::forever(Stmt::Empty)), 17);
    // Unreachable: behind a forever.
    let behind =
        |body| of_thread(Stmt::sequence(Stmt::forever(wait()), Stmt::while_loop(v(D), body)));
    assert_eq!(behind(Stmt::Empty), 17);
    assert_eq!(behind(wait()), 0);
}

#[test]
fn clock_read_18() {
    assert_eq!(
        number(&module(&[1, 1], &[1], vec![], vec![at_clk(vec![later(R, v(CLK))])])),
        18
    );
    assert_eq!(number(&module(&[1, 1], &[1], vec![], vec![at_clk(vec![later(R, v(D))])])), 0);
    let wire = |e| number(&module(&[1, 1], &[1], vec![(1, e)], vec![wait()]));
    assert_eq!(wire(v(CLK)), 18);
    assert_eq!(wire(v(D)), 0);
    assert_eq!(of_thread(at_clk(vec![Stmt::when(v(CLK), Stmt::Empty)])), 18);
}

#[test]
fn wire_order_19() {
    let wires = |first, second| {
        number(&module(&[1, 8], &[8], vec![(8, first), (8, second)], vec![wait()]))
    };
    let [a, b] = [3, 4];
    assert_eq!(wires(v(a), v(D)), 19);
    assert_eq!(wires(v(b), v(D)), 19);
    assert_eq!(wires(v(D), v(b)), 19);
    assert_eq!(wires(v(D), add(v(a), v(a))), 0);
}

#[test]
fn waits_20() {
    let threads = |each: &[usize]| {
        let thread = |&waits| Stmt::list(vec![wait(); waits]);
        of_threads(1, each.iter().map(thread).collect())
    };
    assert_eq!(threads(&[32]), 0);
    assert_eq!(threads(&[33]), 20);
    assert_eq!(threads(&[20, 12]), 0);
    assert_eq!(threads(&[20, 13]), 20);
    // Unreachable ones count.
    let behind = |waits| Stmt::sequence(Stmt::forever(wait()), Stmt::list(vec![wait(); waits]));
    assert_eq!(of_thread(behind(31)), 0);
    assert_eq!(of_thread(behind(32)), 20);
}
