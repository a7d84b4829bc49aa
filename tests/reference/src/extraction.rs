//! Next-state expressions: what every register and place becomes at a clock edge.
//!
//! Document 01, "Extraction and the cycle run", and source document 003, section 4.2.

use crate::module::{Module, Operator, Variable};
use crate::state::PENDING;

pub mod text;
mod rules;
mod walk;
pub mod words;

use text::Thread;

pub const MOST_NODES: usize = 4096;
pub const MOST_WAITS: usize = 32;
pub const REGISTERS: usize = PENDING;
/// The words of the two lent tables.
pub const NODE_WORDS: usize = 4 * MOST_NODES;
pub const ROW: usize = REGISTERS + 1;
pub const ROW_WORDS: usize = ROW * MOST_WAITS;

/// The numbers 12 to 21, and 23 and 24.
pub mod number {
    pub const TWO_WRITERS: u8 = 12;
    pub const BOTH_WAYS: u8 = 13;
    pub const PLAIN_READ: u8 = 14;
    pub const OTHER_WAIT: u8 = 15;
    pub const NO_FIRST_WAIT: u8 = 16;
    pub const NO_SURE_WAIT: u8 = 17;
    pub const CLOCK_READ: u8 = 18;
    pub const WIRE_ORDER: u8 = 19;
    pub const WAITS: u8 = 20;
    pub const NODES: u8 = 21;
    pub const LENT: u8 = 23;
    pub const TABLE: u8 = 24;
}

/// A node's number.
pub type Id = u16;

#[derive(Clone, Copy, Debug, PartialEq, Eq)]
pub enum Node {
    Variable(Variable),
    Constant {
        width: u8,
        value: u32,
    },
    Unknown {
        width: u8,
    },
    /// As many operands as the operator takes, then 0.
    Operation(Operator, [Id; 3]),
    /// The first arm only if the condition holds, x included among the failures.
    Branch {
        condition: Id,
        held: Id,
        other: Id,
    },
}

/// What a walk from a wait gives.
#[derive(Clone, Copy, Debug, PartialEq, Eq)]
pub struct Row {
    pub thread: usize,
    /// The place of the wait.
    pub wait: u8,
    /// By register; 0 past the last.
    pub registers: [Id; REGISTERS],
    pub place: Id,
}

/// Nodes and rows, the rows by thread and wait.
#[derive(Clone, Debug, PartialEq, Eq)]
pub struct Extraction {
    pub threads: Vec<Thread>,
    pub nodes: Vec<Node>,
    pub rows: Vec<Row>,
}

/// The module's nodes and rows, or the lowest of 12 to 21 that it breaks.
pub fn extract(module: &Module) -> Result<Extraction, u8> {
    match rules::broken(module) {
        Some(number) => Err(number),
        None => walk::walks(module).ok_or(number::NODES),
    }
}

impl Extraction {
    /// The row of a thread's wait.
    pub fn row(&self, thread: usize, wait: u8) -> Option<&Row> {
        self.rows.iter().find(|row| row.thread == thread && row.wait == wait)
    }
}
