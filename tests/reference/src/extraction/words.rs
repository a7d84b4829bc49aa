//! Nodes and rows as words.

use super::{Extraction, NODE_WORDS, Node, REGISTERS, ROW, ROW_WORDS, Row};

pub const VARIABLE: u16 = 0;
pub const CONSTANT: u16 = 1;
pub const UNKNOWN: u16 = 2;
/// The kind of operator 0, were there one.
pub const OPERATOR: u16 = 10;
pub const BRANCH: u16 = 40;

/// The words of a table of nodes and of a table of rows.
#[derive(Clone, Debug, PartialEq, Eq)]
pub struct Tables {
    pub nodes: Vec<u16>,
    pub rows: Vec<u16>,
}

/// Kind and operands, unused words 0.
fn node_words(node: Node) -> [u16; 4] {
    match node {
        Node::Variable(variable) => [VARIABLE, variable.into(), 0, 0],
        Node::Constant { width, value } => {
            [CONSTANT, width.into(), value as u16, (value >> 16) as u16]
        }
        Node::Unknown { width } => [UNKNOWN, width.into(), 0, 0],
        Node::Operation(operator, [a, b, c]) => {
            [OPERATOR + u16::from(operator.number()), a, b, c]
        }
        Node::Branch { condition, held, other } => [BRANCH, condition, held, other],
    }
}

/// The registers' nodes, then the place's.
fn row_words(row: &Row) -> [u16; ROW] {
    let mut words = [0; ROW];
    words[..REGISTERS].copy_from_slice(&row.registers);
    words[REGISTERS] = row.place;
    words
}

impl Extraction {
    /// What the lent tables are filled with; the rest is 0.
    pub fn tables(&self) -> Tables {
        let mut nodes: Vec<u16> = self.nodes.iter().flat_map(|&n| node_words(n)).collect();
        let mut rows: Vec<u16> = self.rows.iter().flat_map(row_words).collect();
        nodes.resize(NODE_WORDS, 0);
        rows.resize(ROW_WORDS, 0);
        Tables { nodes, rows }
    }
}
