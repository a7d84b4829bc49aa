//! The simulation cycle of a module: what is enabled, and what each step leaves.
//!
//! Document 01, "The simulation cycle", and source document 003, section 3.1. Except
//! in `fits`, states fit the module.

use crate::module::{Expr, Module, Term, Variable};
use crate::pseudocode::{Instruction, translate_thread};
use crate::state::{State, USERS};

mod change;
mod fit;
mod step;

/// The choice byte of the commit.
pub const COMMIT: u8 = 255;

/// The numbers 22, 25, 31 to 36, 46 and 47.
pub mod number {
    pub const NO_ITEM: u8 = 22;
    pub const INPUTS: u8 = 25;
    pub const UNFIT: u8 = 31;
    pub const NOT_QUIET: u8 = 32;
    pub const NOT_ENABLED: u8 = 33;
    pub const EARLY_COMMIT: u8 = 34;
    pub const NOTHING_PENDING: u8 = 35;
    pub const FULL: u8 = 36;
    pub const NO_USER: u8 = 46;
    pub const USED_UP: u8 = 47;
}

/// A module ready to run.
pub struct Machine<'a> {
    module: &'a Module,
    /// By thread.
    code: Vec<Vec<Instruction<'a>>>,
    /// By wire: the variables that stand in its expression.
    reads: Vec<Vec<Variable>>,
}

/// What a choice byte names.
#[derive(Clone, Copy, Debug, PartialEq, Eq)]
pub enum Choice {
    Thread(usize),
    Wire(usize),
    Commit,
}

impl<'a> Machine<'a> {
    pub fn new(module: &'a Module) -> Machine<'a> {
        let code = module.threads.iter().map(translate_thread).collect();
        let reads = module.wires.iter().map(variables).collect();
        Machine { module, code, reads }
    }

    pub fn module(&self) -> &'a Module {
        self.module
    }

    /// The instructions of each thread.
    pub fn code(&self) -> &[Vec<Instruction<'a>>] {
        &self.code
    }

    pub fn start(&self, allowances: [u32; USERS]) -> State {
        State::start(&self.module.widths, self.module.wires.len(), allowances)
    }

    /// How many items there are: threads, then wires.
    pub fn items(&self) -> usize {
        self.code.len() + self.reads.len()
    }

    /// What the byte names. There are too few items for one to be 255.
    pub fn named(&self, choice: u8) -> Option<Choice> {
        let threads = self.code.len();
        match usize::from(choice) {
            item if item < threads => Some(Choice::Thread(item)),
            item if item < self.items() => Some(Choice::Wire(item - threads)),
            _ => (choice == COMMIT).then_some(Choice::Commit),
        }
    }

    fn current(&self, state: &State, thread: usize) -> Instruction<'a> {
        self.code[thread][usize::from(state.places[thread])]
    }

    /// The terms of the wait that the thread is at.
    fn awaited(&self, state: &State, thread: usize) -> Option<&'a [Term]> {
        match self.current(state, thread) {
            Instruction::Wait(terms) => Some(terms),
            _ => None,
        }
    }

    /// A thread is enabled off a wait, a wire when due.
    fn item_enabled(&self, state: &State, item: usize) -> bool {
        match item.checked_sub(self.code.len()) {
            None => self.awaited(state, item).is_none(),
            Some(wire) => state.due[wire],
        }
    }

    /// The enabled items, rising.
    pub fn enabled(&self, state: &State) -> impl Iterator<Item = u8> {
        (0..self.items()).filter(|&item| self.item_enabled(state, item)).map(|item| item as u8)
    }

    pub fn any_enabled(&self, state: &State) -> bool {
        self.enabled(state).next().is_some()
    }

    pub fn any_pending(&self, state: &State) -> bool {
        state.pending.iter().any(|pending| pending.held)
    }

    /// Nothing enabled, nothing pending.
    pub fn quiet(&self, state: &State) -> bool {
        !self.any_enabled(state) && !self.any_pending(state)
    }

    /// The lowest enabled item, else the commit.
    pub fn lowest(&self, state: &State) -> u8 {
        self.enabled(state).next().unwrap_or(COMMIT)
    }
}

/// The variables that stand in an expression. A call reads what its arguments read, also where the
/// body doesn't look at them, and nothing that stands in the body.
pub fn variables(e: &Expr) -> Vec<Variable> {
    match e {
        Expr::Variable(variable) => vec![*variable],
        Expr::Constant { .. } | Expr::Unknown { .. } => Vec::new(),
        Expr::Operation(_, operands) | Expr::Call(_, operands) => {
            operands.iter().flat_map(variables).collect()
        }
    }
}
