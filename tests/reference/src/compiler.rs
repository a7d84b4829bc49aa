//! The compiler's calls on a sheet of any bytes and lent tables of any words, with the
//! refusals in their order.
//!
//! Document 01, "Extraction and the cycle run" and "Order". A call that is refused leaves
//! what it was lent as it was.

use crate::extraction::words::Tables;
use crate::extraction::{self, Extraction, NODE_WORDS, REGISTERS, ROW_WORDS, number};
use crate::module::Module;
use crate::saved::write_value;
use crate::sheet::Refusal;
use crate::state::{MARKS, PLACES};

mod run;
pub mod table;

use crate::value::Value;
use table::Table;

/// A sheet to be compiled, or the number (1 to 21) that every call gives for it.
pub struct Compiler<'a> {
    compiled: Result<Compiled<'a>, u8>,
}

struct Compiled<'a> {
    module: &'a Module,
    extraction: Extraction,
    tables: Tables,
}

/// The bytes of a lane.
pub const LANE_BYTES: usize = 8 * REGISTERS + PLACES + 8 * MARKS;

/// What a cycle run is handed and gives: the wires are given only.
#[derive(Clone, Debug, PartialEq, Eq)]
pub struct Lane {
    pub registers: [Value; REGISTERS],
    pub places: [u8; PLACES],
    pub wires: [Value; MARKS],
}

impl Lane {
    /// Registers, places and wires as bytes.
    pub fn bytes(&self) -> Vec<u8> {
        let mut bytes = Vec::with_capacity(LANE_BYTES);
        self.registers.iter().for_each(|register| write_value(register, &mut bytes));
        bytes.extend(self.places);
        self.wires.iter().for_each(|wire| write_value(wire, &mut bytes));
        bytes
    }
}

impl<'a> Compiler<'a> {
    /// Of what `sheet::read` gave.
    pub fn new(reading: &'a Result<Module, Refusal>) -> Compiler<'a> {
        let compiled = reading.as_ref().map_err(|refusal| refusal.number).and_then(|module| {
            let extraction = extraction::extract(module)?;
            let tables = extraction.tables();
            Ok(Compiled { module, extraction, tables })
        });
        Compiler { compiled }
    }

    fn compiled(&self) -> Result<&Compiled<'a>, u8> {
        self.compiled.as_ref().map_err(|&number| number)
    }

    /// Nodes and rows, where extraction accepts.
    pub fn extraction(&self) -> Result<&Extraction, u8> {
        Ok(&self.compiled()?.extraction)
    }

    /// Fills the lent tables: 23, 1 to 21.
    pub fn extract(&self, nodes: &mut [u16], rows: &mut [u16]) -> Result<(), u8> {
        lent(nodes, rows)?;
        let Tables { nodes: filled, rows: filled_rows } = &self.compiled()?.tables;
        nodes.copy_from_slice(filled);
        rows.copy_from_slice(filled_rows);
        Ok(())
    }

    /// One clock cycle on lent tables, with the inputs from 1 up: 23, 1 to 21, 24, 31, 25.
    /// A refused one leaves registers and places as they were and gives 32 marks for each wire.
    pub fn cycle(
        &self,
        nodes: &[u16],
        rows: &[u16],
        lane: &mut Lane,
        inputs: &[Value],
    ) -> Result<(), u8> {
        lane.wires = [Value::NOWHERE; MARKS];
        lent(nodes, rows)?;
        let Compiled { module, extraction, .. } = self.compiled()?;
        let threads = &extraction.threads;
        let table = Table::check(module, threads, nodes, rows).ok_or(number::TABLE)?;
        run::judge(module, threads, lane, inputs)?;
        run::rise(module, threads, &table, lane, inputs);
        Ok(())
    }
}

/// The lent tables have their lengths.
fn lent(nodes: &[u16], rows: &[u16]) -> Result<(), u8> {
    match nodes.len() == NODE_WORDS && rows.len() == ROW_WORDS {
        true => Ok(()),
        false => Err(number::LENT),
    }
}
