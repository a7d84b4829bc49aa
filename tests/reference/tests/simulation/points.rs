//! Points that are easily read another way.

use reference::machine::COMMIT;
use reference::module::{Edge, Expr, Operator, Stmt, Term};
use reference::simulator::{Simulator, Verdict};
use reference::state::{MOST, Pending, State};

use reference::build::{
    CLK, add, any, at_clk, known, later, module, num, set, state, v, values,
};
use reference::value::Value;

// ---- where IEEE 1364 decides over 003

/// A condition holds if some known bit is 1: 2 and 1x hold, 0x and x don't.
#[test]
fn a_condition_other_than_one() {
    let (e, r) = (1, 2);
    let thread =
        Stmt::sequence(any(&[e]), Stmt::if_else(v(e), set(r, num(8, 10)), set(r, num(8, 20))));
    let reading = module(&[1, 2], &[8], vec![], vec![thread]);
    let simulator = Simulator::new(&reading);
    let half = |number, unknown| Value { number, unknown };
    for (condition, expected) in [
        (Value::known(2), 10),
        (Value::known(1), 10),
        (half(2, 1), 10),
        (half(1, 2), 10),
        (half(0, 1), 20),
        (half(0, 2), 20),
        (Value::x(2), 20),
    ] {
        let mut state = state(&reading, &[Some(0), Some(0), None]);
        simulator.instant(&mut state, &[Value::known(0), condition]).expect("quiet");
        simulator.run_plain(&mut state, 0, 10);
        assert_eq!(values(&state, 3)[2], Some(expected));
    }
}

/// A wire is stored and waits again in one choice; a change meanwhile isn't lost.
#[test]
fn a_wire_takes_one_choice() {
    let (a, w) = (1, 3);
    let thread = Stmt::sequence(any(&[w]), set(2, v(w)));
    let reading = module(&[1, 8], &[8], vec![(8, v(a))], vec![thread]);
    let simulator = Simulator::new(&reading);
    let mut state = state(&reading, &[Some(0), Some(1), Some(1), Some(1)]);
    simulator.instant(&mut state, &known(&[0, 2])).expect("quiet");
    assert!(state.due[0]);
    simulator.choose(&mut state, 0, 1).expect("due");
    assert_eq!((state.due[0], values(&state, 4)[3]), (false, Some(2)));
    assert_eq!(simulator.choose(&mut state, 0, 1), Err(33));
}

/// An assignment doesn't fire the wait that its own thread arrives at by it, but it does
/// fire the same wait of another thread.
#[test]
fn a_thread_does_not_wake_itself() {
    let (r, seen) = (1, 2);
    let own = Stmt::list(vec![Stmt::posedge(CLK), set(r, num(1, 1)), any(&[r])]);
    let other = Stmt::sequence(any(&[r]), set(seen, num(1, 1)));
    let reading = module(&[1], &[1, 1], vec![], vec![own, other]);
    let simulator = Simulator::new(&reading);
    let mut state = state(&reading, &[Some(0), Some(0), Some(0)]);
    simulator.instant(&mut state, &known(&[1])).expect("quiet");
    assert_eq!(simulator.run_plain(&mut state, 0, 10).verdict, Verdict::Quiet);
    assert_eq!(state.places[..2], [2, 0]);
    assert_eq!(values(&state, 3), [Some(1), Some(1), Some(1)]);
}

/// Wires are due at the start, also those that read nothing.
#[test]
fn wires_are_due_at_the_start() {
    let reading = module(&[1], &[8], vec![(8, num(8, 7))], vec![Stmt::posedge(CLK)]);
    let simulator = Simulator::new(&reading);
    let mut state = simulator.start(MOST).expect("read");
    assert_eq!(state, State { due: state.due, ..State::start(&[1, 8, 8], 0, MOST) });
    assert!(state.due[0] && !state.due[1..].contains(&true));
    let run = simulator.run_plain(&mut state, 0, 10);
    assert_eq!((run.accepted, run.verdict), (1, Verdict::Quiet));
    assert_eq!(values(&state, 3), [None, None, Some(7)]);
}

// ---- changes

/// A wire that reads itself is marked again by its own change, until it stays.
#[test]
fn a_wire_that_reads_itself() {
    let w = 2;
    let climbs = Expr::Operation(
        Operator::Conditional,
        vec![
            Expr::Operation(Operator::Less, vec![v(w), num(8, 3)]),
            add(v(w), num(8, 1)),
            v(w),
        ],
    );
    let reading = module(&[1], &[8], vec![(8, climbs)], vec![Stmt::posedge(CLK)]);
    let simulator = Simulator::new(&reading);
    let mut state = state(&reading, &[Some(0), Some(0), Some(0)]);
    state.due[0] = true;
    let run = simulator.run_plain(&mut state, 0, 100);
    assert_eq!((run.accepted, run.verdict), (4, Verdict::Quiet));
    assert_eq!(values(&state, 3)[2], Some(3));
}

/// All pending values are one change: a wait on two of them fires once.
#[test]
fn a_commit_is_one_change() {
    let [a, b, seen] = [1, 2, 3];
    let writer = at_clk(vec![later(a, num(8, 1)), later(b, num(8, 2))]);
    let watcher = Stmt::list(vec![
        any(&[a, b]),
        set(seen, add(v(a), v(b))),
        any(&[a, b]),
        set(seen, num(8, 99)),
    ]);
    let reading = module(&[1], &[8, 8, 8], vec![], vec![writer, watcher]);
    let simulator = Simulator::new(&reading);
    let mut state = state(&reading, &[Some(0), Some(0), Some(0), Some(0)]);
    simulator.instant(&mut state, &known(&[1])).expect("quiet");
    assert_eq!(simulator.run_plain(&mut state, 0, 100).verdict, Verdict::Quiet);
    assert_eq!(values(&state, 4), [Some(1), Some(1), Some(2), Some(3)]);
    assert_eq!(state.places[1], 2);
}

/// A thread with terms of several variables goes on by one place where all fire.
#[test]
fn a_change_fires_a_thread_once() {
    let term = |edge, variable| Term { edge, variable };
    let terms = vec![term(Edge::Posedge, 0), term(Edge::Any, 0), term(Edge::Any, 1)];
    let thread = Stmt::list(vec![Stmt::Wait(terms.clone()), Stmt::Wait(terms)]);
    let reading = module(&[1, 8], &[1], vec![], vec![thread]);
    let simulator = Simulator::new(&reading);
    let mut state = simulator.start(MOST).expect("read");
    simulator.instant(&mut state, &known(&[1, 5])).expect("quiet");
    assert_eq!(state.places[0], 1);
}

/// A pending value survives a plain assignment to the same register.
#[test]
fn a_plain_assignment_leaves_what_is_pending() {
    let r = 1;
    let thread = at_clk(vec![later(r, num(8, 1)), set(r, num(8, 2))]);
    let reading = module(&[1], &[8], vec![], vec![thread]);
    let simulator = Simulator::new(&reading);
    let mut state = state(&reading, &[Some(0), Some(0)]);
    simulator.instant(&mut state, &known(&[1])).expect("quiet");
    assert_eq!(simulator.run(&mut state, 0, &[0, 0, 0]).accepted, 3);
    assert_eq!(values(&state, 2)[1], Some(2));
    simulator.choose(&mut state, 0, COMMIT).expect("pending");
    assert_eq!(values(&state, 2)[1], Some(1));
}

// ---- slots

/// x stored over x is no change, and one bit that becomes unknown is one. A commit lowers the flags and
/// leaves the slots as they are.
#[test]
fn changes_of_marks() {
    let [r, seen] = [1, 2];
    let writer = at_clk(vec![set(r, Expr::Unknown { width: 8 })]);
    let watcher = Stmt::sequence(any(&[r]), set(seen, num(8, 1)));
    let reading = module(&[1], &[8, 8], vec![], vec![writer, watcher]);
    let simulator = Simulator::new(&reading);
    let half = Value { number: 3, unknown: 4 };
    for (before, pending, woken) in [
        (Value::x(8), None, false),
        (half, None, true),
        (Value::known(0), None, true),
        (Value::x(8), Some(Value::x(8)), false),
        (Value::x(8), Some(half), true),
        (half, Some(Value { number: 3, unknown: 12 }), true),
        (half, Some(half), false),
    ] {
        let mut state = state(&reading, &[Some(0), None, Some(0)]);
        state.values[usize::from(r)] = before;
        match pending {
            Some(value) => {
                state.pending[0] = Pending::of(value);
                simulator.choose(&mut state, 0, COMMIT).expect("pending");
                assert_eq!(state.pending[0], Pending { held: false, slot: value });
                assert_eq!(state.values[usize::from(r)], value);
            }
            None => simulator.instant(&mut state, &known(&[1])).expect("quiet"),
        }
        assert_eq!(simulator.run_plain(&mut state, 0, 100).verdict, Verdict::Quiet);
        assert_eq!(values(&state, 3)[2], Some(u32::from(woken)), "{before} {pending:?}");
    }
}
