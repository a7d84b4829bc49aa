//! How many runs of functions' bodies one working out of an expression can take at most.
//!
//! A call counts 1, what its arguments take and the most that its body can take; an operator what
//! its operands take, both arms of ?: among them; a variable or constant nothing. A body takes what
//! its parts take, an if-else what its condition takes and the greater of its legs.
//!
//! On a sheet that is read the number is below 2^128: at most 9 bodies and expressions call one
//! another, in 8,192 bytes.

use crate::extraction::text::expression;
use crate::module::{Expr, Function, Module, Stmt};
use crate::pseudocode::{Instruction, translate_thread};

/// Above it a sheet is warned of.
pub const MANY: u128 = 1_000_000;

/// Where an expression stands.
#[derive(Clone, Copy, Debug, PartialEq, Eq)]
pub enum Place {
    Wire(usize),
    /// A thread and a place in it.
    Instruction(usize, usize),
}

/// The most for each expression of a module: wires, then threads, each by its places.
pub fn of_module(module: &Module) -> Vec<(Place, u128)> {
    let bodies = of_bodies(&module.functions);
    let wires = module.wires.iter().enumerate();
    let mut found: Vec<(Place, u128)> =
        wires.map(|(wire, e)| (Place::Wire(wire), of_expression(e, &bodies))).collect();
    for (thread, statement) in module.threads.iter().enumerate() {
        for (place, instruction) in translate_thread(statement).into_iter().enumerate() {
            if let Instruction::Set(_, e)
            | Instruction::Later(_, e)
            | Instruction::IfNot(e, _) = instruction
            {
                let most = of_expression(e, &bodies);
                found.push((Place::Instruction(thread, place), most));
            }
        }
    }
    found
}

/// The most for each function's body, by number: a body calls earlier functions only.
pub fn of_bodies(functions: &[Function]) -> Vec<u128> {
    let mut bodies = Vec::new();
    for function in functions {
        let most = of_body(&function.body, &bodies);
        bodies.push(most);
    }
    bodies
}

/// The most for an expression, by those of the bodies.
pub fn of_expression(e: &Expr, bodies: &[u128]) -> u128 {
    let all = |parts: &[Expr]| parts.iter().map(|part| of_expression(part, bodies)).sum();
    match e {
        Expr::Variable(_) | Expr::Constant { .. } | Expr::Unknown { .. } => 0,
        Expr::Operation(_, operands) => all(operands),
        Expr::Call(number, arguments) => {
            let arguments: u128 = all(arguments);
            arguments + 1 + bodies[usize::from(*number)]
        }
    }
}

fn of_body(body: &Stmt, bodies: &[u128]) -> u128 {
    let own = expression(body).map_or(0, |e| of_expression(e, bodies));
    let parts = match body {
        Stmt::Sequence(a, b) => of_body(a, bodies) + of_body(b, bodies),
        Stmt::If(_, a) => of_body(a, bodies),
        Stmt::IfElse(_, a, b) => of_body(a, bodies).max(of_body(b, bodies)),
        _ => 0,
    };
    own + parts
}
