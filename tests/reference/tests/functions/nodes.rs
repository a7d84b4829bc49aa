//! Node numbers of calls, worked out by hand.

use reference::build::{add, at_clk, later, num, set, v};
use reference::extraction::{Node, extract};
use reference::module::{Function, Module, Operator, Stmt};

use crate::short::{call, function, lower, module, sometimes};

const D: u8 = 1;
const R: u8 = 2;

/// A clock, an 8-bit input and an 8-bit register, in front of the nodes that follow.
fn of(functions: Vec<Function>, thread: Stmt) -> Module {
    module(functions, &[1, 8], &[8], vec![], vec![thread])
}

/// The nodes behind the variables', the register's node and the place's.
fn holds(module: &Module, nodes: &[Node], register: u16, place: u16) {
    let extraction = extract(module).expect("extractable");
    assert_eq!(extraction.nodes[3..], *nodes);
    let row = extraction.rows[0];
    assert_eq!((row.registers[0], row.place), (register, place));
}

const UNKNOWN: Node = Node::Unknown { width: 8 };
const HOME: Node = Node::Constant { width: 8, value: 0 };

fn constant(value: u32) -> Node {
    Node::Constant { width: 8, value }
}

fn two(operator: Operator, a: u16, b: u16) -> Node {
    Node::Operation(operator, [a, b, 0])
}

fn branch(condition: u16, held: u16, other: u16) -> Node {
    Node::Branch { condition, held, other }
}

/// An argument, the unknown node, then the body: here one that gives its parameter.
#[test]
fn arguments_then_the_result() {
    let same = function(&[8], 8, set(1, v(0)));
    let thread = at_clk(vec![later(R, call(0, vec![add(v(D), v(R))]))]);
    holds(&of(vec![same], thread), &[two(Operator::Add, 1, 2), UNKNOWN, HOME], 3, 5);
}

/// An empty body: the result is the unknown node.
#[test]
fn an_empty_body() {
    let nothing = function(&[8, 8], 8, Stmt::Empty);
    let thread = at_clk(vec![later(R, call(0, vec![v(D), num(8, 5)]))]);
    holds(&of(vec![nothing], thread), &[constant(5), UNKNOWN, HOME], 4, 5);
}

/// The condition, both legs, one branch, also where the legs have the same node.
#[test]
fn an_if_else() {
    let thread = at_clk(vec![later(R, call(0, vec![v(D), v(R)]))]);
    let nodes = [UNKNOWN, two(Operator::Less, 1, 2), branch(4, 1, 2), HOME];
    holds(&of(vec![lower()], thread), &nodes, 5, 6);
    let thread = at_clk(vec![later(R, call(0, vec![v(D)]))]);
    let empty = function(&[8], 8, Stmt::when(v(0), Stmt::Empty));
    holds(&of(vec![empty], thread), &[UNKNOWN, branch(1, 3, 3), HOME], 4, 5);
}

/// What follows an if stands in both of its legs: they run to the body's end.
#[test]
fn legs_run_to_the_end() {
    let body = Stmt::sequence(Stmt::when(v(0), set(1, num(8, 7))), set(1, add(v(1), v(0))));
    let thread = at_clk(vec![later(R, call(0, vec![v(D)]))]);
    let nodes = [
        UNKNOWN,
        // The held leg: 7, then 7 + d.
        constant(7),
        two(Operator::Add, 4, 1),
        // The other leg: x + d.
        two(Operator::Add, 3, 1),
        branch(1, 5, 6),
        HOME,
    ];
    holds(&of(vec![function(&[8], 8, body)], thread), &nodes, 7, 8);
}

/// A call in a body and one in an argument: each puts nodes of its own.
#[test]
fn calls_in_calls() {
    let outer = function(&[8], 8, set(1, add(call(0, vec![v(0)]), v(1))));
    let thread = at_clk(vec![later(R, call(1, vec![call(0, vec![v(R)])]))]);
    let nodes = [
        // The argument: f0 of r.
        UNKNOWN,
        constant(9),
        branch(2, 4, 3),
        // f1: its result, then f0 of the argument, then the sum.
        UNKNOWN,
        UNKNOWN,
        constant(9),
        branch(5, 8, 7),
        two(Operator::Add, 9, 6),
        HOME,
    ];
    holds(&of(vec![sometimes(), outer], thread), &nodes, 10, 11);
}

/// A variable in an argument takes the node that is held for it.
#[test]
fn arguments_take_the_node_held() {
    let same = || function(&[8], 8, set(1, v(0)));
    let thread = at_clk(vec![set(R, v(D)), set(R, call(0, vec![v(R)]))]);
    holds(&of(vec![same()], thread), &[UNKNOWN, HOME], 1, 4);
    let thread = at_clk(vec![later(R, num(8, 3)), later(R, call(0, vec![v(R)]))]);
    holds(&of(vec![same()], thread), &[constant(3), UNKNOWN, HOME], 2, 5);
}

/// 21 by a body that doubles at each if: 4,096 nodes fit.
#[test]
fn many_nodes() {
    let ifs = |count: usize| Stmt::list(vec![Stmt::when(v(0), Stmt::Empty); count]);
    let nodes = |count| {
        let thread = at_clk(vec![later(R, call(0, vec![v(D)]))]);
        extract(&of(vec![function(&[8], 8, ifs(count))], thread)).map(|e| e.nodes.len())
    };
    // Three variables, the unknown node, a branch for each if passed, the place.
    assert_eq!(nodes(11), Ok(3 + 1 + 2047 + 1));
    assert_eq!(nodes(12), Err(21));
}
