//! What can be read off a module's text, unreachable code included.

use crate::machine::variables;
use crate::module::{Expr, Module, Stmt, Term, Variable};
use crate::pseudocode::{Instruction, translate_thread};

/// How a register is written.
#[derive(Clone, Copy, Debug, PartialEq, Eq, PartialOrd, Ord)]
pub enum Way {
    Plain,
    Later,
}

/// The statement and all statements in it, as they stand in the text.
pub fn statements(s: &Stmt) -> Vec<&Stmt> {
    let mut all = vec![s];
    match s {
        Stmt::Empty | Stmt::Set(..) | Stmt::Later(..) | Stmt::Wait(_) => {}
        Stmt::Sequence(a, b) | Stmt::IfElse(_, a, b) => {
            all.extend(statements(a));
            all.extend(statements(b));
        }
        Stmt::If(_, a) | Stmt::While(_, a) | Stmt::Forever(a) => all.extend(statements(a)),
    }
    all
}

/// The assignments: each target and how it is written.
pub fn writes(thread: &Stmt) -> Vec<(Variable, Way)> {
    let write = |s: &Stmt| match s {
        Stmt::Set(target, _) => Some((*target, Way::Plain)),
        Stmt::Later(target, _) => Some((*target, Way::Later)),
        _ => None,
    };
    statements(thread).into_iter().filter_map(write).collect()
}

/// The variables that stand in an expression. A wait names variables and reads none.
pub fn reads(thread: &Stmt) -> Vec<Variable> {
    statements(thread).into_iter().filter_map(expression).flat_map(variables).collect()
}

/// The expression that stands in the statement itself.
pub fn expression(s: &Stmt) -> Option<&Expr> {
    match s {
        Stmt::Set(_, e) | Stmt::Later(_, e) => Some(e),
        Stmt::If(e, _) | Stmt::IfElse(e, ..) | Stmt::While(e, _) => Some(e),
        _ => None,
    }
}

/// The waits' terms.
pub fn waits(thread: &Stmt) -> Vec<&[Term]> {
    statements(thread).into_iter().filter_map(terms).collect()
}

fn terms(s: &Stmt) -> Option<&[Term]> {
    match s {
        Stmt::Wait(terms) => Some(terms),
        _ => None,
    }
}

/// What a thread's walks and rows go by.
#[derive(Clone, Debug, PartialEq, Eq)]
pub struct Thread {
    /// The places of its waits, rising.
    pub waits: Vec<u8>,
    /// For each register how the thread writes it, if it does. Extraction accepts only
    /// modules in which that is one way.
    pub written: Vec<Option<Way>>,
}

impl Thread {
    pub fn all(module: &Module) -> Vec<Thread> {
        module.threads.iter().map(|statement| Thread::of(module, statement)).collect()
    }

    fn of(module: &Module, statement: &Stmt) -> Thread {
        let code = translate_thread(statement);
        let is_wait = |place: &usize| matches!(code[*place], Instruction::Wait(_));
        let waits = (0..code.len()).filter(is_wait).map(|place| place as u8).collect();
        let writes = writes(statement);
        let way = |register| writes.iter().find(|write| write.0 == register).map(|w| w.1);
        let registers = module.inputs..module.inputs + module.registers;
        Thread { waits, written: registers.map(way).collect() }
    }

    /// The registers that it writes, rising.
    pub fn registers(&self) -> impl Iterator<Item = usize> {
        (0..self.written.len()).filter(|&register| self.written[register].is_some())
    }
}
