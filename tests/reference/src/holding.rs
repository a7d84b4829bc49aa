//! Another implementation's extraction and cycle run held against this one, sheet by sheet,
//! word for word.

use crate::calls::{Calls, Reference};
use crate::extraction::{NODE_WORDS, ROW_WORDS};
use crate::lanes;
use crate::random::Random;
use crate::replay::UNWRITTEN;
use crate::sheet::read;

mod cycles;

use crate::value::Value;
use cycles::Both;

/// Words behind the lent ones that no call may reach.
const GUARD: usize = 64;

/// How often each number was met, and the words that calls are lent.
pub struct Holding {
    pub extractions: [u64; 256],
    pub cycles: [u64; 256],
    /// Those of many cycles in one call.
    pub many: [u64; 256],
    lent: Buffers,
}

/// Both tables, with the guards.
#[derive(Clone, PartialEq, Eq)]
struct Buffers {
    nodes: Vec<u16>,
    rows: Vec<u16>,
}

type Outcome = Result<(), String>;

impl Buffers {
    fn unwritten() -> Buffers {
        let [nodes, rows] = [NODE_WORDS, ROW_WORDS].map(|words| vec![UNWRITTEN; words + GUARD]);
        Buffers { nodes, rows }
    }

    fn lend(&mut self, nodes: usize, rows: usize) -> (&mut [u16], &mut [u16]) {
        (&mut self.nodes[..nodes], &mut self.rows[..rows])
    }
}

impl Default for Holding {
    fn default() -> Holding {
        let none = [0; 256];
        Holding { extractions: none, cycles: none, many: none, lent: Buffers::unwritten() }
    }
}

impl Holding {
    /// Extraction of the sheet, then cycle runs, first on its own tables.
    pub fn hold(&mut self, sheet: &[u8], other: &impl Calls, random: &mut Random) -> Outcome {
        let reading = read(sheet);
        let reference = Reference::new(&reading);
        self.extract(&reference, other, NODE_WORDS, ROW_WORDS)?;
        if random.chance(1, 16) {
            let (nodes, rows) = wrong_lengths(random);
            self.extract(&reference, other, nodes, rows)?;
            let mut both = Both { holding: self, reference: &reference, other };
            both.cycle((nodes, rows), &lanes::anything(random), &[])?;
            both.cycles((nodes, rows), &lanes::anything(random), &[vec![]])?;
        }
        let mut both = Both { holding: self, reference: &reference, other };
        match (&reading, reference.compiler.extraction()) {
            (Ok(module), Ok(extraction)) => both.accepted(module, extraction, random),
            _ => {
                let right = (NODE_WORDS, ROW_WORDS);
                both.cycle(right, &lanes::anything(random), &[Value::NOWHERE])?;
                both.cycles(right, &lanes::anything(random), &[vec![Value::NOWHERE]])
            }
        }
    }

    /// Both are lent words that nobody wrote, in the end they hold the same.
    fn extract(
        &mut self,
        reference: &Reference,
        other: &impl Calls,
        nodes: usize,
        rows: usize,
    ) -> Outcome {
        let mut found = Buffers::unwritten();
        self.lent = found.clone();
        let (lent_nodes, lent_rows) = self.lent.lend(nodes, rows);
        let expected_number = reference.extract(lent_nodes, lent_rows);
        self.extractions[usize::from(expected_number)] += 1;
        let (lent_nodes, lent_rows) = found.lend(nodes, rows);
        let number = other.extract(lent_nodes, lent_rows);
        if number != expected_number {
            return Err(format!("extract: {expected_number} and {number}"));
        }
        same_words("node", &self.lent.nodes, &found.nodes)?;
        same_words("row", &self.lent.rows, &found.rows)
    }
}

fn same_words(name: &str, expected: &[u16], found: &[u16]) -> Outcome {
    match expected.iter().zip(found).position(|(a, b)| a != b) {
        None => Ok(()),
        Some(index) => {
            let (expected, found) = (expected[index], found[index]);
            Err(format!("extract: {name} word {index}: {expected} and {found}"))
        }
    }
}

fn wrong_lengths(random: &mut Random) -> (usize, usize) {
    match random.below(6) {
        0 => (NODE_WORDS + 1, ROW_WORDS),
        1 => (NODE_WORDS - 1, ROW_WORDS),
        2 => (NODE_WORDS, ROW_WORDS + 1),
        3 => (NODE_WORDS, ROW_WORDS - 1),
        4 => (random.below(NODE_WORDS), random.below(ROW_WORDS)),
        _ => (0, 0),
    }
}
