//! Document 01's samples about events and pending values.

use reference::module::Stmt;
use reference::simulator::{Simulator, Verdict};

use crate::orders::resting;
use reference::build::{
    CLK, add, any, at_clk, known, later, module, num, set, state, v, values,
};
use reference::value::Value;

/// Register 5 assigned 5 wakes no thread; assigned over another value, it does.
#[test]
fn an_equal_value_wakes_no_thread() {
    let (r, woken) = (1, 2);
    let writer = at_clk(vec![set(r, num(8, 5))]);
    let watcher = Stmt::sequence(any(&[r]), set(woken, num(1, 1)));
    let reading = module(&[1], &[8, 1], vec![], vec![writer, watcher]);
    let simulator = Simulator::new(&reading);
    for (before, expected) in [(Some(5), 0), (Some(4), 1), (None, 1)] {
        let mut state = state(&reading, &[Some(0), before, Some(0)]);
        simulator.instant(&mut state, &known(&[1])).expect("quiet");
        assert_eq!(simulator.run_plain(&mut state, 0, 100).verdict, Verdict::Quiet);
        assert_eq!(values(&state, 3), [Some(1), Some(5), Some(expected)]);
        assert_eq!(state.places[..2], [0, 0]);
    }
}

/// Two threads `a <= b`, `b <= a`: swapped in any order.
#[test]
fn two_threads_swap_in_any_order() {
    let (a, b) = (1, 2);
    let threads = vec![at_clk(vec![later(a, v(b))]), at_clk(vec![later(b, v(a))])];
    let reading = module(&[1], &[8, 8], vec![], threads);
    let simulator = Simulator::new(&reading);
    let machine = simulator.machine().expect("read");
    for (x, y) in [(Some(3), Some(4)), (None, Some(4)), (Some(3), None), (Some(6), Some(6))] {
        let mut state = state(&reading, &[Some(0), x, y]);
        simulator.instant(&mut state, &known(&[1])).expect("quiet");
        let rests = resting(machine, &state);
        assert_eq!(rests.len(), 1);
        assert_eq!(values(&rests[0], 3), [Some(1), y, x]);
    }
}

/// By plain assignment the order counts.
#[test]
fn plain_assignments_do_not_swap() {
    let (a, b) = (1, 2);
    let threads = vec![at_clk(vec![set(a, v(b))]), at_clk(vec![set(b, v(a))])];
    let reading = module(&[1], &[8, 8], vec![], threads);
    let simulator = Simulator::new(&reading);
    let mut state = state(&reading, &[Some(0), Some(3), Some(4)]);
    simulator.instant(&mut state, &known(&[1])).expect("quiet");
    let rests = resting(simulator.machine().expect("read"), &state);
    let found: Vec<_> = rests.iter().map(|rest| values(rest, 3)).collect();
    assert_eq!(found, [[Some(1), Some(3), Some(3)], [Some(1), Some(4), Some(4)]]);
}

/// Two pending values for one register: the second stands, and no thread sees the first.
#[test]
fn the_second_pending_value_stands() {
    let (r, seen) = (1, 2);
    let writer = at_clk(vec![later(r, num(8, 1)), later(r, num(8, 2))]);
    let watcher = Stmt::sequence(any(&[r]), set(seen, add(v(seen), num(8, 1))));
    let reading = module(&[1], &[8, 8], vec![], vec![writer, watcher]);
    let simulator = Simulator::new(&reading);
    let mut state = state(&reading, &[Some(0), Some(0), Some(0)]);
    simulator.instant(&mut state, &known(&[1])).expect("quiet");
    let rests = resting(simulator.machine().expect("read"), &state);
    let found: Vec<_> = rests.iter().map(|rest| values(rest, 3)).collect();
    assert_eq!(found, [[Some(1), Some(2), Some(1)]]);
}

/// x to 1 and 0 to x fire posedge; 1 to 1, x to 0 and 1 to x don't; after x, 1 does again.
#[test]
fn a_clock_that_is_unknown_for_a_while() {
    let ticks = 1;
    let counter = at_clk(vec![set(ticks, add(v(ticks), num(8, 1)))]);
    let reading = module(&[1], &[8], vec![], vec![counter]);
    let simulator = Simulator::new(&reading);
    let mut state = state(&reading, &[None, Some(0)]);
    let (x, low, high) = (Value::x(1), Value::known(0), Value::known(1));
    let clock =
        [(high, 1), (high, 1), (low, 1), (x, 2), (low, 2), (high, 3), (x, 3), (high, 4)];
    for (value, expected) in clock {
        simulator.instant(&mut state, &[value]).expect("quiet");
        simulator.run_plain(&mut state, 0, 10);
        assert_eq!(values(&state, 2)[usize::from(CLK) + 1], Some(expected));
    }
}
