//! What a call is worth, and what it reads.

use reference::build::{add, at_clk, later, num, v};
use reference::extraction::extract;
use reference::machine::variables;
use reference::module::{Expr, Function, Module, Stmt};
use reference::value::{Value, evaluate};
use reference::values::Values;

use crate::short::{call, function, less, lower, module, not, sometimes};

/// A module with a clock, an 8-bit input 1 of this value, a register 2 that is x.
fn worth(functions: Vec<Function>, input: Value, e: Expr) -> Value {
    let module = module(functions, &[1, 8], &[8], vec![], vec![Stmt::Empty]);
    let mut values = Values::unknown(&module);
    values.set(1, input);
    evaluate(&e, &values)
}

#[test]
fn a_clamp() {
    let clamped = |n| worth(vec![lower()], Value::known(n), call(0, vec![v(1), num(8, 9)]));
    assert_eq!(clamped(5), Value::known(5));
    assert_eq!(clamped(9), Value::known(9));
    assert_eq!(clamped(200), Value::known(9));
}

/// A condition that is unknown takes the second leg, as in a thread.
#[test]
fn an_unknown_condition_fails() {
    let found = worth(vec![lower()], Value::x(8), call(0, vec![num(8, 1), v(1)]));
    assert_eq!(found, Value::x(8));
    let found = worth(vec![lower()], Value::x(8), call(0, vec![v(1), num(8, 1)]));
    assert_eq!(found, Value::known(1));
}

/// The result is unknown at each call, also where a call before it gave a number.
#[test]
fn the_result_starts_unknown() {
    let both = Expr::Operation(
        reference::module::Operator::Conditional,
        vec![call(0, vec![num(8, 1)]), call(0, vec![num(8, 0)]), num(8, 0)],
    );
    assert_eq!(worth(vec![sometimes()], Value::ZERO, both), Value::x(8));
    let nothing = function(&[8], 8, Stmt::Empty);
    assert_eq!(worth(vec![nothing], Value::ZERO, call(0, vec![v(1)])), Value::x(8));
}

/// A body reads the result's present value, and calls earlier functions in turn.
#[test]
fn bodies_that_call() {
    let twice = function(
        &[8],
        8,
        Stmt::sequence(
            Stmt::Set(1, call(0, vec![v(0), num(8, 100)])),
            Stmt::Set(1, add(v(1), v(1))),
        ),
    );
    let functions = || vec![lower(), twice.clone()];
    assert_eq!(worth(functions(), Value::known(7), call(1, vec![v(1)])), Value::known(14));
    assert_eq!(
        worth(functions(), Value::known(107), call(1, vec![call(1, vec![v(1)])])),
        Value::known(200)
    );
}

/// What stands in a body counts bit by bit too.
#[test]
fn known_bits_beside_unknown_ones() {
    let masked = function(
        &[8],
        8,
        Stmt::Set(
            1,
            Expr::Operation(reference::module::Operator::And, vec![v(0), num(8, 0x0F)]),
        ),
    );
    let input = Value { number: 0x30, unknown: 0x81 };
    let found = worth(vec![masked], input, call(0, vec![v(1)]));
    assert_eq!(found, Value { number: 0, unknown: 1 });
}

/// The variables in the arguments, used or not; none of a body's.
#[test]
fn what_a_call_reads() {
    assert_eq!(variables(&call(0, vec![v(5), add(v(7), num(8, 1)), v(5)])), [5, 7, 5]);
    assert_eq!(variables(&call(0, vec![num(8, 0)])), [0; 0]);
}

fn number(module: &Module) -> u8 {
    extract(module).err().unwrap_or(0)
}

/// 14, 18 and 19 go by what calls read: a body's variable 0 is no clock, and a parameter that the
/// body doesn't look at counts.
#[test]
fn rules_by_what_a_call_reads() {
    let unused = || function(&[8, 1], 8, Stmt::Set(2, num(8, 1)));
    let thread = |e| vec![at_clk(vec![later(2, e)])];
    let of = |e| number(&module(vec![unused()], &[1, 8], &[8], vec![], thread(e)));
    assert_eq!(of(call(0, vec![v(1), num(1, 0)])), 0);
    assert_eq!(of(call(0, vec![v(1), v(0)])), 18);
    let wires = |first| {
        let wires = vec![(8, first), (8, v(1))];
        number(&module(vec![unused()], &[1, 8], &[8], wires, thread(v(1))))
    };
    assert_eq!(wires(call(0, vec![v(1), num(1, 0)])), 0);
    assert_eq!(wires(call(0, vec![v(3), num(1, 0)])), 19);
    assert_eq!(wires(call(0, vec![v(4), num(1, 0)])), 19);
    let plain = |read| {
        let writer = at_clk(vec![Stmt::Set(2, v(1))]);
        let reader = at_clk(vec![later(3, call(0, vec![v(read), less(v(1), v(1))]))]);
        number(&module(vec![unused()], &[1, 8], &[8, 8], vec![], vec![writer, reader]))
    };
    assert_eq!(plain(3), 0);
    assert_eq!(plain(2), 14);
    let clocked = function(&[1], 8, Stmt::when(not(v(0)), Stmt::Set(1, num(8, 1))));
    assert_eq!(
        number(&module(vec![clocked], &[1, 8], &[8], vec![], thread(call(0, vec![num(1, 1)])))),
        0
    );
}
