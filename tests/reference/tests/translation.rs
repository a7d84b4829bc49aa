//! The example translations of source document 003, section 2.2. A case is
//! nested if-else with ==, as document 01 has no ===.

use reference::module::{Edge, Expr, Operator, Stmt, Term};
use reference::pseudocode::{lines, size, translate, translate_thread};

const CLK: u8 = 0;
const E: u8 = 1;
const A: u8 = 2;
const B: u8 = 3;
const C: u8 = 4;
const TOTAL: u8 = 5;
const DATA: u8 = 6;
const STATE: u8 = 7;

fn v(variable: u8) -> Expr {
    Expr::Variable(variable)
}

fn constant(value: u32) -> Expr {
    Expr::Constant { width: 8, value }
}

fn op(operator: Operator, left: Expr, right: Expr) -> Expr {
    Expr::Operation(operator, vec![left, right])
}

fn set(target: u8, value: u8) -> Stmt {
    Stmt::Set(target, v(value))
}

fn later(target: u8, value: u8) -> Stmt {
    Stmt::Later(target, v(value))
}

fn clk() -> Stmt {
    Stmt::posedge(CLK)
}

fn becomes(statement: &Stmt, expected: &[&str]) {
    assert_eq!(lines(&translate(statement)), expected);
    assert_eq!(size(statement), expected.len());
}

#[test]
fn example_2_2_1() {
    let first = Stmt::list(vec![later(A, B), later(B, A)]);
    let second = Stmt::list(vec![set(A, B), set(B, A)]);
    becomes(
        &Stmt::if_else(v(E), first, second),
        &["0 ifnot 4 v1", "1 later 2 v3", "2 later 3 v2", "3 go 6", "4 set 2 v3", "5 set 3 v2"],
    );
}

#[test]
fn example_2_2_2() {
    let first = Stmt::list(vec![later(A, B), clk(), later(B, A)]);
    let second = Stmt::list(vec![set(A, B), set(B, A)]);
    becomes(
        &Stmt::if_else(v(E), first, second),
        &[
            "0 ifnot 5 v1",
            "1 later 2 v3",
            "2 wait 1 0",
            "3 later 3 v2",
            "4 go 7",
            "5 set 2 v3",
            "6 set 3 v2",
        ],
    );
}

#[test]
fn example_2_2_3() {
    let first = Stmt::list(vec![later(A, B), clk(), later(B, A)]);
    let second = Stmt::list(vec![set(A, B), clk(), set(B, A)]);
    becomes(
        &Stmt::if_else(v(E), first, second),
        &[
            "0 ifnot 5 v1",
            "1 later 2 v3",
            "2 wait 1 0",
            "3 later 3 v2",
            "4 go 8",
            "5 set 2 v3",
            "6 wait 1 0",
            "7 set 3 v2",
        ],
    );
}

#[test]
fn example_2_2_5() {
    let any = |variable| Term { edge: Edge::Any, variable };
    let wait = Stmt::Wait(vec![any(B), any(C)]);
    let sum = Stmt::Set(A, op(Operator::Add, v(B), v(C)));
    let expected = ["0 wait 0 3 0 4", "1 set 2 o6 v3 v4", "2 go 0"];
    let body = Stmt::sequence(wait, sum);
    assert_eq!(lines(&translate_thread(&body)), expected);
    becomes(&Stmt::forever(body), &expected);
}

fn add_data() -> Stmt {
    Stmt::Set(TOTAL, op(Operator::Add, v(TOTAL), v(DATA)))
}

#[test]
fn example_2_2_6() {
    let body = vec![clk(), set(TOTAL, DATA), clk(), add_data(), clk(), add_data()];
    becomes(
        &Stmt::forever(Stmt::list(body)),
        &[
            "0 wait 1 0",
            "1 set 5 v6",
            "2 wait 1 0",
            "3 set 5 o6 v5 v6",
            "4 wait 1 0",
            "5 set 5 o6 v5 v6",
            "6 go 0",
        ],
    );
}

#[test]
fn example_2_2_7() {
    let arm = |first, state| Stmt::sequence(first, Stmt::Set(STATE, constant(state)));
    let is = |state| op(Operator::Equal, v(STATE), constant(state));
    let rest = Stmt::if_else(is(1), arm(add_data(), 2), arm(add_data(), 0));
    let case = Stmt::if_else(is(0), arm(set(TOTAL, DATA), 1), rest);
    becomes(
        &Stmt::forever(Stmt::sequence(clk(), case)),
        &[
            "0 wait 1 0",
            "1 ifnot 5 o8 v7 c8:0",
            "2 set 5 v6",
            "3 set 7 c8:1",
            "4 go 11",
            "5 ifnot 9 o8 v7 c8:1",
            "6 set 5 o6 v5 v6",
            "7 set 7 c8:2",
            "8 go 11",
            "9 set 5 o6 v5 v6",
            "10 set 7 c8:0",
            "11 go 0",
        ],
    );
}

#[test]
fn loops_and_if() {
    becomes(&Stmt::when(v(E), set(A, B)), &["0 ifnot 2 v1", "1 set 2 v3"]);
    becomes(&Stmt::while_loop(v(E), set(A, B)), &["0 ifnot 3 v1", "1 set 2 v3", "2 go 0"]);
    becomes(
        &Stmt::sequence(set(A, B), Stmt::while_loop(v(E), Stmt::forever(clk()))),
        &["0 set 2 v3", "1 ifnot 5 v1", "2 wait 1 0", "3 go 2", "4 go 1"],
    );
    becomes(&Stmt::Empty, &[]);
}

/// Document 01: if-else of two assignments has size 4.
#[test]
fn size_of_if_else() {
    assert_eq!(size(&Stmt::if_else(v(E), set(A, B), set(B, A))), 4);
}
