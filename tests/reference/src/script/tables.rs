//! Records about tables: extraction, single words, cycle runs.

use super::Writer;
use crate::compiler::Lane;
use crate::damage::{self, Store};
use crate::lanes;
use crate::replay::{Cycle, Lent, NODES, ROWS, Record, Table};
use crate::value::Value;

impl Writer<'_> {
    pub(super) fn table_record(&mut self) -> Record {
        match self.random.below(16) {
            0..=3 => Record::Extract(self.lent()),
            4 | 5 => self.word(),
            6 => Record::Tables,
            _ => Record::Cycle(Box::new(self.cycle())),
        }
    }

    /// Mostly the lengths that are asked for.
    fn lent(&mut self) -> Lent {
        let Lent { nodes, rows } = Lent::RIGHT;
        let random = &mut self.random;
        match random.below(24) {
            0 => Lent { nodes: nodes - 1, rows },
            1 => Lent { nodes: nodes + 1, rows },
            2 => Lent { nodes, rows: rows - 1 },
            3 => Lent { nodes, rows: rows + 1 },
            4 => Lent {
                nodes: random.below(NODES + 1) as u16,
                rows: random.below(ROWS + 1) as u16,
            },
            5 => Lent { nodes: 0, rows: 0 },
            _ => Lent::RIGHT,
        }
    }

    /// Mostly one that the module's tables use, now and then past the end.
    fn word(&mut self) -> Record {
        let random = &mut self.random;
        let word = random.number() as u16;
        let (table, index, word) = match self.session.compiler.extraction() {
            Ok(extraction) if random.chance(7, 8) => {
                let Store { table, index, word } = damage::store(extraction, random);
                (table, index, word)
            }
            _ if random.chance(1, 2) => (Table::Nodes, random.number() as u16, word),
            _ => (Table::Rows, random.below(ROWS + 4) as u16, word),
        };
        Record::Word { table, index, word }
    }

    fn cycle(&mut self) -> Cycle {
        let lent = self.lent();
        let Lane { registers, places, .. } = self.lane();
        Cycle { lent, registers, places, inputs: self.cycle_inputs() }
    }

    /// Mostly one that fits; or the registers and places of the present state.
    fn lane(&mut self) -> Lane {
        let random = &mut self.random;
        let Some(module) = self.module else {
            return lanes::anything(random);
        };
        let mut lane = lanes::fitting(module, random);
        match random.below(16) {
            0 => lane = lanes::anything(random),
            1..=3 => lanes::disturb(&mut lane, module, random),
            4..=7 => {
                let registers = &self.session.state.values[module.inputs.into()..];
                let own = lane.registers.iter_mut().zip(registers);
                own.take(module.registers.into()).for_each(|(slot, value)| *slot = *value);
                lane.places = self.session.state.places;
            }
            _ => {}
        }
        lane
    }

    fn cycle_inputs(&mut self) -> Vec<Value> {
        let random = &mut self.random;
        match self.module {
            Some(module) if random.chance(7, 8) => lanes::inputs(module, random),
            Some(module) => lanes::bad_inputs(module, random),
            None => vec![Value::known(1); random.below(4)],
        }
    }
}
