//! Depth 16 and 17 of expressions, 64 and 65 of statements.

use super::{
    CLOCK, DATA, EXPR, Sample, THREAD, WIDE, WIRE_HEAD, accepted, bytes, condition, ends,
    judged, refused, thread, wire,
};
use crate::encode::{encode_expr, encode_stmt};
use crate::module::{Expr, Operator, Stmt};
use crate::sheet::{EXPR_DEPTH, STMT_DEPTH, number};

/// An 8-bit expression of this depth, deep in the operand of this number.
pub fn deep_expr(operator: Operator, operand: usize, depth: usize) -> Expr {
    let leaf = Expr::Variable(DATA);
    (1..depth).fold(leaf.clone(), |inner, _| {
        let mut operands = vec![leaf.clone(); operator.arity()];
        operands[operand] = inner;
        Expr::Operation(operator, operands)
    })
}

pub fn expression_depth() -> Vec<Sample> {
    let mut samples = Vec::new();
    for (operator, operand) in [
        (Operator::Invert, 0),
        (Operator::Add, 0),
        (Operator::Add, 1),
        (Operator::Conditional, 0),
        (Operator::Conditional, 1),
        (Operator::Conditional, 2),
    ] {
        let at_limit = encode_expr(&deep_expr(operator, operand, EXPR_DEPTH));
        let past = encode_expr(&deep_expr(operator, operand, EXPR_DEPTH + 1));
        // Each level puts map, operator and the earlier operands in front; of the
        // operands past the depth the first is met first.
        let in_front = (EXPR_DEPTH - 1) * (2 + 2 * operand) + 2;
        samples.push(accepted(wire(&at_limit)));
        samples.push(accepted(condition(&at_limit)));
        samples.push(accepted(thread(&[&[0x23, WIDE], &at_limit[..]].concat())));
        samples.push(refused(number::DEPTH, EXPR + in_front, wire(&past)));
        samples.push(refused(number::DEPTH, EXPR + in_front, condition(&past)));
        // Past the depth no byte is 2, and any byte is 7.
        let front = [&WIRE_HEAD, &past[..in_front]].concat();
        for byte in bytes() {
            let sheet = [&front[..], &[byte]].concat();
            samples.push(refused(number::DEPTH, EXPR + in_front, sheet));
        }
        samples.push(ends(front));
    }
    samples
}

/// Wraps a statement in another one; how many bytes come before it there, and
/// how many before the first statement there.
type Wrap = (fn(Stmt) -> Stmt, usize, usize);

const WRAPS: [Wrap; 7] = [
    (|inner| Stmt::sequence(inner, Stmt::Empty), 1, 1),
    (|inner| Stmt::sequence(Stmt::Empty, inner), 2, 1),
    (|inner| Stmt::when(Expr::Variable(CLOCK), inner), 3, 3),
    (|inner| Stmt::if_else(Expr::Variable(CLOCK), inner, Stmt::Empty), 3, 3),
    (|inner| Stmt::if_else(Expr::Variable(CLOCK), Stmt::Empty, inner), 4, 3),
    (|inner| Stmt::while_loop(Expr::Variable(CLOCK), inner), 3, 3),
    (Stmt::forever, 1, 1),
];

fn deep_stmt(wrap: fn(Stmt) -> Stmt, innermost: Stmt, depth: usize) -> Vec<u8> {
    encode_stmt(&(1..depth).fold(innermost, |inner, _| wrap(inner)))
}

pub fn statement_depth() -> Vec<Sample> {
    let mut samples = Vec::new();
    for (wrap, before, opening) in WRAPS {
        let in_front = (STMT_DEPTH - 1) * before + opening;
        let past = deep_stmt(wrap, Stmt::Empty, STMT_DEPTH + 1);
        samples.push(accepted(thread(&deep_stmt(wrap, Stmt::Empty, STMT_DEPTH))));
        samples.push(accepted(thread(&deep_stmt(wrap, Stmt::posedge(CLOCK), STMT_DEPTH))));
        samples.push(refused(number::DEPTH, THREAD + in_front, thread(&past)));
        let front = thread(&past[..in_front]);
        for byte in bytes() {
            let sheet = [&front[..], &[byte]].concat();
            samples.push(refused(number::DEPTH, THREAD + in_front, sheet));
        }
        samples.push(ends(front));
        // An expression's depth starts anew in the innermost statement.
        for depth in [EXPR_DEPTH, EXPR_DEPTH + 1] {
            let value = deep_expr(Operator::Invert, 0, depth);
            let sheet = thread(&deep_stmt(wrap, Stmt::Later(WIDE, value), STMT_DEPTH));
            let place = THREAD + (STMT_DEPTH - 1) * before + 2 + 2 * EXPR_DEPTH;
            samples.push(judged(depth == EXPR_DEPTH, number::DEPTH, place, sheet));
        }
    }
    samples
}
