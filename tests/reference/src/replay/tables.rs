//! The two tables that a script's records work on, and the record of a cycle run.

use crate::compiler::Lane;
use crate::extraction::{NODE_WORDS, REGISTERS, ROW_WORDS};
use crate::saved::{Bytes, write_value};
use crate::state::{MARKS, PLACES};
use crate::value::Value;

/// One word more than a call may be lent.
pub const NODES: usize = NODE_WORDS + 1;
pub const ROWS: usize = ROW_WORDS + 1;
/// What every word is at first.
pub const UNWRITTEN: u16 = 43690;

/// How many words of each table a call is lent.
#[derive(Clone, Copy, Debug, PartialEq, Eq)]
pub struct Lent {
    pub nodes: u16,
    pub rows: u16,
}

impl Lent {
    /// As many as a call asks for.
    pub const RIGHT: Lent = Lent { nodes: NODE_WORDS as u16, rows: ROW_WORDS as u16 };

    pub fn read(bytes: &mut Bytes) -> Option<Lent> {
        let lent = Lent { nodes: bytes.word()?, rows: bytes.word()? };
        let inside = usize::from(lent.nodes) <= NODES && usize::from(lent.rows) <= ROWS;
        inside.then_some(lent)
    }

    pub fn write(self, script: &mut Vec<u8>) {
        script.extend(self.nodes.to_le_bytes());
        script.extend(self.rows.to_le_bytes());
    }
}

#[derive(Clone, Copy, Debug, PartialEq, Eq)]
pub enum Table {
    Nodes,
    Rows,
}

pub struct Words {
    pub nodes: Vec<u16>,
    pub rows: Vec<u16>,
}

impl Words {
    pub fn unwritten() -> Words {
        Words { nodes: vec![UNWRITTEN; NODES], rows: vec![UNWRITTEN; ROWS] }
    }

    /// Stores the word where the index lies inside the table.
    pub fn store(&mut self, table: Table, index: u16, word: u16) {
        let words = match table {
            Table::Nodes => &mut self.nodes,
            Table::Rows => &mut self.rows,
        };
        if let Some(place) = words.get_mut(usize::from(index)) {
            *place = word;
        }
    }

    /// The first words of both.
    pub fn lend(&mut self, lent: Lent) -> (&mut [u16], &mut [u16]) {
        (&mut self.nodes[..lent.nodes.into()], &mut self.rows[..lent.rows.into()])
    }

    pub fn line(&self) -> String {
        format!("nodes {} rows {}", hex_words(&self.nodes), hex_words(&self.rows))
    }
}

/// Four digits a word, high digit first.
fn hex_words(words: &[u16]) -> String {
    let bytes: Vec<u8> = words.iter().flat_map(|word| word.to_be_bytes()).collect();
    super::hex(&bytes)
}

/// A cycle run: what it is handed.
#[derive(Clone, Debug, PartialEq, Eq)]
pub struct Cycle {
    pub lent: Lent,
    pub registers: [Value; REGISTERS],
    pub places: [u8; PLACES],
    /// From 1 up, at most 255 values.
    pub inputs: Vec<Value>,
}

impl Cycle {
    pub fn read(bytes: &mut Bytes) -> Option<Cycle> {
        let lent = Lent::read(bytes)?;
        let mut registers = [Value::ZERO; REGISTERS];
        for register in &mut registers {
            *register = bytes.value()?;
        }
        let places = bytes.take(PLACES)?.try_into().expect("so many bytes");
        let inputs = read_inputs(bytes)?;
        Some(Cycle { lent, registers, places, inputs })
    }

    pub fn write(&self, script: &mut Vec<u8>) {
        self.lent.write(script);
        self.registers.iter().for_each(|register| write_value(register, script));
        script.extend(self.places);
        write_inputs(&self.inputs, script);
    }

    /// Registers and places as handed, no wires yet.
    pub fn lane(&self) -> Lane {
        Lane { registers: self.registers, places: self.places, wires: [Value::NOWHERE; MARKS] }
    }
}

/// A count and so many values.
pub fn read_inputs(bytes: &mut Bytes) -> Option<Vec<Value>> {
    let count = bytes.byte()?;
    (0..count).map(|_| bytes.value()).collect()
}

pub fn write_inputs(inputs: &[Value], script: &mut Vec<u8>) {
    script.push(u8::try_from(inputs.len()).expect("at most 255 values"));
    inputs.iter().for_each(|input| write_value(input, script));
}
