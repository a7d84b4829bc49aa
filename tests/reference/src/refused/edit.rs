//! Statements found and changed inside a thread.

use crate::extraction::text::statements;
use crate::module::{Expr, Operator, Stmt};
use crate::random::Random;

/// The nth of the statements in `statements`' order.
pub fn at(s: &mut Stmt, n: usize) -> &mut Stmt {
    let Some(n) = n.checked_sub(1) else {
        return s;
    };
    match s {
        Stmt::Sequence(a, b) | Stmt::IfElse(_, a, b) => {
            let size = statements(a).len();
            if n < size { at(a, n) } else { at(b, n - size) }
        }
        Stmt::If(_, a) | Stmt::While(_, a) | Stmt::Forever(a) => at(a, n),
        _ => panic!("no such statement"),
    }
}

/// One of the statements for which this holds.
pub fn one_of<'a>(
    s: &'a mut Stmt,
    random: &mut Random,
    holds: impl Fn(&Stmt) -> bool,
) -> Option<&'a mut Stmt> {
    let all = statements(s);
    let places: Vec<usize> = (0..all.len()).filter(|&n| holds(all[n])).collect();
    match places.is_empty() {
        true => None,
        false => Some(at(s, random.pick(&places))),
    }
}

/// Puts a statement behind any of the thread's statements.
pub fn put_in(thread: &mut Stmt, added: Stmt, random: &mut Random) {
    let place = one_of(thread, random, |_| true).expect("at least itself");
    *place = Stmt::sequence(place.clone(), added);
}

/// The same expression, reading this one too.
pub fn also_reading(e: &Expr, read: Expr) -> Expr {
    Expr::Operation(Operator::Conditional, vec![read, e.clone(), e.clone()])
}
