//! Size, translation and listing.
//!
//! Document 01, "Values and pseudo-code" and "Samples from the stands".

use std::fmt::{self, Display, Formatter};

use crate::module::{Expr, Module, Stmt, Term, Variable};
use crate::sheet::{self, Refusal};

#[derive(Clone, Copy, Debug, PartialEq, Eq)]
pub enum Instruction<'a> {
    Wait(&'a [Term]),
    Set(Variable, &'a Expr),
    Later(Variable, &'a Expr),
    Go(usize),
    IfNot(&'a Expr, usize),
}

/// How many instructions a statement becomes.
pub fn size(s: &Stmt) -> usize {
    match s {
        Stmt::Empty => 0,
        Stmt::Set(..) | Stmt::Later(..) | Stmt::Wait(_) => 1,
        Stmt::Sequence(a, b) => size(a) + size(b),
        Stmt::If(_, a) => size(a) + 1,
        Stmt::IfElse(_, a, b) => size(a) + size(b) + 2,
        Stmt::While(_, a) => size(a) + 2,
        Stmt::Forever(a) => size(a) + 1,
    }
}

/// A thread is a forever of its statement.
pub fn thread_size(statement: &Stmt) -> usize {
    size(statement) + 1
}

/// The statement's instructions where the first stands at place 0.
pub fn translate(s: &Stmt) -> Vec<Instruction<'_>> {
    let mut code = Vec::new();
    place(s, 0, &mut code);
    code
}

/// The instructions of a thread.
pub fn translate_thread(statement: &Stmt) -> Vec<Instruction<'_>> {
    let mut code = Vec::new();
    place_forever(statement, 0, &mut code);
    code
}

/// Appends the statement's instructions, the first at place n.
fn place<'a>(s: &'a Stmt, n: usize, code: &mut Vec<Instruction<'a>>) {
    match s {
        Stmt::Empty => {}
        Stmt::Set(target, value) => code.push(Instruction::Set(*target, value)),
        Stmt::Later(target, value) => code.push(Instruction::Later(*target, value)),
        Stmt::Wait(terms) => code.push(Instruction::Wait(terms)),
        Stmt::Sequence(a, b) => {
            place(a, n, code);
            place(b, n + size(a), code);
        }
        Stmt::If(e, a) => {
            code.push(Instruction::IfNot(e, n + 1 + size(a)));
            place(a, n + 1, code);
        }
        Stmt::IfElse(e, a, b) => {
            code.push(Instruction::IfNot(e, n + 2 + size(a)));
            place(a, n + 1, code);
            code.push(Instruction::Go(n + 2 + size(a) + size(b)));
            place(b, n + 2 + size(a), code);
        }
        Stmt::While(e, a) => {
            code.push(Instruction::IfNot(e, n + size(a) + 2));
            place(a, n + 1, code);
            code.push(Instruction::Go(n));
        }
        Stmt::Forever(a) => place_forever(a, n, code),
    }
}

fn place_forever<'a>(body: &'a Stmt, n: usize, code: &mut Vec<Instruction<'a>>) {
    place(body, n, code);
    code.push(Instruction::Go(n));
}

// ---- text

impl Display for Instruction<'_> {
    fn fmt(&self, f: &mut Formatter) -> fmt::Result {
        match self {
            Instruction::Wait(terms) => {
                write!(f, "wait")?;
                terms.iter().try_for_each(|t| write!(f, " {} {}", t.edge.number(), t.variable))
            }
            Instruction::Set(target, value) => write!(f, "set {target} {value}"),
            Instruction::Later(target, value) => write!(f, "later {target} {value}"),
            Instruction::Go(goal) => write!(f, "go {goal}"),
            Instruction::IfNot(condition, goal) => write!(f, "ifnot {goal} {condition}"),
        }
    }
}

/// Operator first.
impl Display for Expr {
    fn fmt(&self, f: &mut Formatter) -> fmt::Result {
        match self {
            Expr::Variable(variable) => write!(f, "v{variable}"),
            Expr::Constant { width, value } => write!(f, "c{width}:{value}"),
            Expr::Unknown { width } => write!(f, "u{width}"),
            Expr::Operation(operator, operands) => {
                write!(f, "o{}", operator.number())?;
                operands.iter().try_for_each(|operand| write!(f, " {operand}"))
            }
            Expr::Call(number, arguments) => {
                write!(f, "f{number}")?;
                arguments.iter().try_for_each(|argument| write!(f, " {argument}"))
            }
        }
    }
}

/// One line for each instruction, its place in front.
pub fn lines(code: &[Instruction]) -> Vec<String> {
    code.iter().enumerate().map(|(place, i)| format!("{place} {i}")).collect()
}

/// The listing of a module.
pub fn listing(module: &Module) -> String {
    let mut text = format!("threads {}\n", module.threads.len());
    for (thread, statement) in module.threads.iter().enumerate() {
        for line in lines(&translate_thread(statement)) {
            text.push_str(&format!("{thread} {line}\n"));
        }
    }
    text
}

/// What the listing program prints for a sheet.
pub fn print(sheet: &[u8]) -> String {
    printed(&sheet::read(sheet))
}

/// The same of what reading it gave.
pub fn printed(reading: &Result<Module, Refusal>) -> String {
    match reading {
        Ok(module) => listing(module),
        Err(refusal) => format!("refused {}\n", refusal.number),
    }
}
