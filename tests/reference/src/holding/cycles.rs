//! Cycle runs by both, on the tables as they stand.

use super::{Holding, Outcome};
use crate::calls::{Calls, Reference};
use crate::compiler::Lane;
use crate::damage::{self, Store};
use crate::extraction::{Extraction, NODE_WORDS, ROW_WORDS};
use crate::lanes;
use crate::module::Module;
use crate::random::Random;
use crate::replay::Table;
use crate::value::Value;

const DAMAGES: usize = 3;

pub struct Both<'a, 'b, C: Calls> {
    pub holding: &'a mut Holding,
    pub reference: &'a Reference<'b>,
    pub other: &'a C,
}

impl<C: Calls> Both<'_, '_, C> {
    /// Cycles one after the other, then some that may be refused.
    pub fn accepted(
        &mut self,
        module: &Module,
        extraction: &Extraction,
        random: &mut Random,
    ) -> Outcome {
        let right = (NODE_WORDS, ROW_WORDS);
        let mut lane = lanes::fitting(module, random);
        for _ in 0..2 {
            lane = self.run(right, &lane, &lanes::inputs(module, random))?;
        }
        let mut bad = lane.clone();
        lanes::disturb(&mut bad, module, random);
        self.run(right, &bad, &lanes::inputs(module, random))?;
        self.cycles(right, &bad, &lanes::some_inputs(module, random))?;
        self.run(right, &lane, &lanes::bad_inputs(module, random))?;
        self.cycles(right, &lane, &lanes::some_inputs(module, random))?;
        for _ in 0..DAMAGES {
            for _ in 0..random.pick(&[1, 1, 1, 2, 3]) {
                let Store { table, index, word } = damage::store(extraction, random);
                match table {
                    Table::Nodes => self.holding.lent.nodes[usize::from(index)] = word,
                    Table::Rows => self.holding.lent.rows[usize::from(index)] = word,
                }
            }
            let lane = lanes::fitting(module, random);
            let inputs = lanes::inputs(module, random);
            self.run(right, &lane, &inputs)?;
            if random.chance(1, 4) {
                self.cycles(right, &lane, &[inputs])?;
            }
            let tables = extraction.tables();
            self.holding.lent.nodes[..NODE_WORDS].copy_from_slice(&tables.nodes);
            self.holding.lent.rows[..ROW_WORDS].copy_from_slice(&tables.rows);
        }
        Ok(())
    }

    pub fn cycle(&mut self, lent: (usize, usize), lane: &Lane, inputs: &[Value]) -> Outcome {
        self.run(lent, lane, inputs).map(|_| ())
    }

    /// Many cycles in one call, as so many calls of the reference.
    pub fn cycles(
        &mut self,
        (nodes, rows): (usize, usize),
        lane: &Lane,
        inputs: &[Vec<Value>],
    ) -> Outcome {
        let (nodes, rows) = self.holding.lent.lend(nodes, rows);
        let (mut expected, mut found) = (lane.clone(), lane.clone());
        let run = self.reference.cycles(nodes, rows, &mut expected, inputs);
        self.holding.many[usize::from(run.1)] += 1;
        let found_run = self.other.cycles(nodes, rows, &mut found, inputs);
        if (run, &expected) == (found_run, &found) {
            return Ok(());
        }
        Err(format!(
            "cycles: {run:?} and {found_run:?}, of {lane:?} with {inputs:?}\n\
             expected {expected:?}\nfound {found:?}"
        ))
    }

    /// A cycle run by both on the words as they stand; what it gives.
    fn run(
        &mut self,
        (nodes, rows): (usize, usize),
        lane: &Lane,
        inputs: &[Value],
    ) -> Result<Lane, String> {
        let (nodes, rows) = self.holding.lent.lend(nodes, rows);
        let (mut expected, mut found) = (lane.clone(), lane.clone());
        let number = self.reference.cycle(nodes, rows, &mut expected, inputs);
        self.holding.cycles[usize::from(number)] += 1;
        let found_number = self.other.cycle(nodes, rows, &mut found, inputs);
        if (number, &expected) == (found_number, &found) {
            return Ok(expected);
        }
        Err(format!(
            "cycle: {number} and {found_number}, of {lane:?} with {inputs:?}\n\
             expected {expected:?}\nfound {found:?}"
        ))
    }
}
