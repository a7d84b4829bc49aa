//! The sheet of a module. Nothing is judged: a module outside the limits gives
//! the sheet that says so.

use crate::module::{Expr, Function, Module, Stmt, Term, Variable};
use crate::sheet::WITH_FUNCTIONS;

pub fn encode(module: &Module) -> Vec<u8> {
    let with = !module.functions.is_empty();
    let mut sheet = vec![
        module.inputs.wrapping_add(if with { WITH_FUNCTIONS } else { 0 }),
        module.registers,
        byte(module.wires.len()),
        byte(module.threads.len()),
    ];
    sheet.extend(with.then(|| byte(module.functions.len())));
    sheet.extend(&module.widths);
    module.functions.iter().for_each(|f| function(f, &mut sheet));
    module.wires.iter().for_each(|wire| expr(wire, &mut sheet));
    module.threads.iter().for_each(|thread| stmt(thread, &mut sheet));
    sheet
}

pub fn encode_expr(e: &Expr) -> Vec<u8> {
    let mut sheet = Vec::new();
    expr(e, &mut sheet);
    sheet
}

pub fn encode_stmt(s: &Stmt) -> Vec<u8> {
    let mut sheet = Vec::new();
    stmt(s, &mut sheet);
    sheet
}

fn byte(count: usize) -> u8 {
    u8::try_from(count).expect("a count fits in one byte")
}

fn function(f: &Function, sheet: &mut Vec<u8>) {
    sheet.push(byte(f.parameters.len()));
    sheet.extend(&f.parameters);
    sheet.push(f.result);
    stmt(&f.body, sheet);
}

/// The map of an expression.
pub fn expr_map(e: &Expr) -> u8 {
    match e {
        Expr::Variable(_) => 0x02,
        Expr::Constant { .. } => 0x0C,
        Expr::Unknown { .. } => 0x04,
        Expr::Operation(operator, _) => [0x11, 0x31, 0x71][operator.arity() - 1],
        Expr::Call(..) => 0x80,
    }
}

fn expr(e: &Expr, sheet: &mut Vec<u8>) {
    sheet.push(expr_map(e));
    match e {
        Expr::Variable(variable) => sheet.push(*variable),
        Expr::Constant { width, value } => {
            sheet.push(*width);
            sheet.extend(value.to_le_bytes());
        }
        Expr::Unknown { width } => sheet.push(*width),
        Expr::Operation(operator, operands) => {
            sheet.push(operator.number());
            operands.iter().for_each(|operand| expr(operand, sheet));
        }
        Expr::Call(number, arguments) => {
            sheet.push(*number);
            arguments.iter().for_each(|argument| expr(argument, sheet));
        }
    }
}

/// The map of a statement.
pub fn stmt_map(s: &Stmt) -> u8 {
    match s {
        Stmt::Empty => 0x00,
        Stmt::Set(..) => 0x03,
        Stmt::Later(..) => 0x23,
        Stmt::Sequence(..) => 0x0C,
        Stmt::If(..) => 0x06,
        Stmt::IfElse(..) => 0x0E,
        Stmt::While(..) => 0x46,
        Stmt::Forever(_) => 0x44,
        Stmt::Wait(_) => 0x10,
    }
}

fn stmt(s: &Stmt, sheet: &mut Vec<u8>) {
    sheet.push(stmt_map(s));
    match s {
        Stmt::Empty => {}
        Stmt::Set(target, value) | Stmt::Later(target, value) => {
            assignment(*target, value, sheet);
        }
        Stmt::Sequence(first, second) => {
            stmt(first, sheet);
            stmt(second, sheet);
        }
        Stmt::If(condition, body) | Stmt::While(condition, body) => {
            expr(condition, sheet);
            stmt(body, sheet);
        }
        Stmt::IfElse(condition, first, second) => {
            expr(condition, sheet);
            stmt(first, sheet);
            stmt(second, sheet);
        }
        Stmt::Forever(body) => stmt(body, sheet),
        Stmt::Wait(terms) => wait(terms, sheet),
    }
}

fn assignment(target: Variable, value: &Expr, sheet: &mut Vec<u8>) {
    sheet.push(target);
    expr(value, sheet);
}

fn wait(terms: &[Term], sheet: &mut Vec<u8>) {
    sheet.push(byte(terms.len()));
    for term in terms {
        sheet.extend([term.edge.number(), term.variable]);
    }
}
