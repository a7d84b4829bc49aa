//! The cycle book: what registers, places and wires are after each accepted instant,
//! fed the sheet and the instants' inputs and nothing else.

use crate::extraction::Extraction;
use crate::module::Module;
use crate::value::Value;
use crate::values::Values;

pub struct Book<'a> {
    module: &'a Module,
    extraction: &'a Extraction,
    /// Inputs, registers and wires.
    pub values: Values<'a>,
    /// By thread.
    pub places: Vec<u8>,
}

impl<'a> Book<'a> {
    /// At first inputs and registers are x, places 0, and it settles.
    pub fn new(module: &'a Module, extraction: &'a Extraction) -> Book<'a> {
        let places = vec![0; module.threads.len()];
        let mut book = Book { module, extraction, values: Values::unknown(module), places };
        book.values.settle();
        book
    }

    /// An accepted instant with all inputs, the clock among them.
    pub fn instant(&mut self, inputs: &[Value]) {
        for (input, slot) in (0..).zip(inputs) {
            self.values.set(input, *slot);
        }
        if inputs[0] == Value::known(1) {
            self.rise();
        }
        self.values.settle();
    }

    /// Written registers and places take the values of the nodes in their places' rows, all
    /// worked out on the new inputs with registers and wires as they were.
    fn rise(&mut self) {
        let worked_out = self.values.of_nodes(&self.extraction.nodes);
        let of = |node: u16| worked_out[usize::from(node)];
        for (thread, place) in self.places.iter_mut().enumerate() {
            let row = self.extraction.row(thread, *place).expect("a wait of the thread");
            for register in self.extraction.threads[thread].registers() {
                let variable = self.module.inputs + register as u8;
                self.values.set(variable, of(row.registers[register]));
            }
            let next = of(row.place).as_known().expect("a walk ends in a known place");
            *place = next as u8;
        }
    }
}
