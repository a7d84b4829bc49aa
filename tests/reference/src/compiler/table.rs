//! Lent tables of any words: number 24.
//!
//! Document 01: any of the 4,096 nodes, or an entry, with an unknown kind, no such variable
//! or node, a wrong width, a constant too wide or an operand not earlier; or a place entry
//! whose branch arms end in anything but known 8-bit constants that are waits of its thread.
//! Unused words aren't judged.

use crate::extraction::text::Thread;
use crate::extraction::words::{BRANCH, CONSTANT, OPERATOR, UNKNOWN, VARIABLE};
use crate::extraction::{Id, MOST_NODES, Node, REGISTERS, ROW};
use crate::module::{Module, Operator};
use crate::sheet::{MOST_WIDTH, result_width};
use crate::value::Value;

/// Tables that passed.
pub struct Table<'a> {
    pub nodes: Vec<Node>,
    rows: &'a [u16],
}

impl<'a> Table<'a> {
    /// Of 16,384 and 1,056 words. The entries judged are those of the registers that a
    /// thread writes, and its place's.
    pub fn check(
        module: &Module,
        threads: &[Thread],
        nodes: &[u16],
        rows: &'a [u16],
    ) -> Option<Table<'a>> {
        let (nodes, widths) = all_nodes(module, nodes)?;
        let table = Table { nodes, rows };
        let registers = &module.widths[module.inputs.into()..];
        let mut row = 0;
        for thread in threads {
            let mut seen = vec![false; table.nodes.len()];
            for _ in &thread.waits {
                let fits = |register| {
                    let entry = usize::from(table.register(row, register));
                    widths.get(entry) == Some(&registers[register])
                };
                let leads = table.leads_to(&thread.waits, table.place(row), &mut seen);
                (leads && thread.registers().all(fits)).then_some(())?;
                row += 1;
            }
        }
        Some(table)
    }

    /// The node of a register in a row.
    pub fn register(&self, row: usize, register: usize) -> Id {
        self.rows[ROW * row + register]
    }

    /// The node of the place.
    pub fn place(&self, row: usize) -> Id {
        self.rows[ROW * row + REGISTERS]
    }

    /// Whether all branch arms from the entry on end in these places. What was seen before
    /// does.
    fn leads_to(&self, waits: &[u8], entry: Id, seen: &mut [bool]) -> bool {
        let mut open = vec![entry];
        while let Some(id) = open.pop() {
            match self.nodes.get(usize::from(id)) {
                None => return false,
                Some(_) if seen[usize::from(id)] => continue,
                Some(&Node::Constant { width: 8, value })
                    if waits.iter().any(|&wait| value == wait.into()) => {}
                Some(&Node::Branch { held, other, .. }) => open.extend([held, other]),
                Some(_) => return false,
            }
            seen[usize::from(id)] = true;
        }
        true
    }
}

/// The nodes and their widths.
fn all_nodes(module: &Module, words: &[u16]) -> Option<(Vec<Node>, Vec<u8>)> {
    let (mut nodes, mut widths) =
        (Vec::with_capacity(MOST_NODES), Vec::with_capacity(MOST_NODES));
    for words in words.chunks_exact(4) {
        let (node, width) = node([words[0], words[1], words[2], words[3]], module, &widths)?;
        nodes.push(node);
        widths.push(width);
    }
    Some((nodes, widths))
}

/// A node and its width, by the widths of the earlier ones.
fn node(words: [u16; 4], module: &Module, widths: &[u8]) -> Option<(Node, u8)> {
    let [kind, a, b, c] = words;
    let earlier = |id: Id| widths.get(usize::from(id)).copied();
    match kind {
        VARIABLE => {
            let width = *module.widths.get(usize::from(a))?;
            Some((Node::Variable(a as u8), width))
        }
        CONSTANT => {
            let (width, value) = (constant_width(a)?, u32::from(b) | u32::from(c) << 16);
            let fits = Value::known(value).fits(width);
            fits.then_some((Node::Constant { width, value }, width))
        }
        UNKNOWN => {
            let width = constant_width(a)?;
            Some((Node::Unknown { width }, width))
        }
        BRANCH => {
            let (_, first, second) = (earlier(a)?, earlier(b)?, earlier(c)?);
            let node = Node::Branch { condition: a, held: b, other: c };
            (first == second).then_some((node, first))
        }
        _ => operation(kind, [a, b, c], earlier),
    }
}

fn constant_width(word: u16) -> Option<u8> {
    u8::try_from(word).ok().filter(|width| (1..=MOST_WIDTH).contains(width))
}

fn operation(
    kind: u16,
    words: [u16; 3],
    earlier: impl Fn(Id) -> Option<u8>,
) -> Option<(Node, u8)> {
    let number = kind.checked_sub(OPERATOR)?;
    let operator = Operator::ALL.into_iter().find(|o| u16::from(o.number()) == number)?;
    let (mut operands, mut widths) = ([0; 3], [0; 3]);
    for index in 0..operator.arity() {
        operands[index] = words[index];
        widths[index] = earlier(words[index])?;
    }
    let width = result_width(operator, &widths[..operator.arity()])?;
    Some((Node::Operation(operator, operands), width))
}
