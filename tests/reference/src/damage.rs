//! Tables with a word changed.

use crate::extraction::words::{BRANCH, CONSTANT, OPERATOR, UNKNOWN, VARIABLE};
use crate::extraction::{Extraction, MOST_NODES, ROW};
use crate::random::Random;
use crate::replay::Table;

/// A store into a table.
#[derive(Clone, Copy, Debug)]
pub struct Store {
    pub table: Table,
    pub index: u16,
    pub word: u16,
}

/// One that hits what the module uses more often than what it doesn't.
pub fn store(extraction: &Extraction, random: &mut Random) -> Store {
    let (nodes, rows) = (extraction.nodes.len(), extraction.rows.len());
    if random.chance(1, 3) {
        let used = random.chance(7, 8);
        let index = if used { random.below(ROW * rows) } else { random.below(ROW * 32) };
        let row = index / ROW;
        let place = if random.chance(1, 3) { ROW * row + ROW - 1 } else { index };
        return Store { table: Table::Rows, index: place as u16, word: id(nodes, random) };
    }
    let node = match random.below(8) {
        0 => random.below(MOST_NODES),
        1 => nodes.min(MOST_NODES - 1),
        _ => random.below(nodes),
    };
    let field = random.below(4);
    let word = match field {
        0 => kind(random),
        _ if random.chance(1, 3) => near(node, random),
        _ => id(nodes, random),
    };
    Store { table: Table::Nodes, index: (4 * node + field) as u16, word }
}

fn kind(random: &mut Random) -> u16 {
    match random.below(8) {
        0 => VARIABLE,
        1 => CONSTANT,
        2 => UNKNOWN,
        3 => BRANCH,
        4 => random.pick(&[3, 9, 10, 21, 39, 41, 256, 65535]),
        _ => OPERATOR + random.between(1, 10) as u16,
    }
}

/// A node's number, mostly one in use.
fn id(nodes: usize, random: &mut Random) -> u16 {
    match random.below(16) {
        0 => random.number() as u16,
        1 => random.pick(&[0, 1, 2, 4095, 4096, 65535]),
        2 => random.below(40) as u16,
        _ => random.below(nodes) as u16,
    }
}

/// The node itself, or one next to it.
fn near(node: usize, random: &mut Random) -> u16 {
    (node + random.between(0, 3)).saturating_sub(2) as u16
}
