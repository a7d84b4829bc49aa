//! The proved library.

use std::hint::black_box;

use reference::extraction::{NODE_WORDS, REGISTERS, ROW_WORDS};
use reference::library::{self, Planes, SAVED};
use reference::module::Module;
use reference::samples::Bench;
use reference::state::{MARKS, MOST, PLACES};
use reference::value::{Value, mask};
use reference::{saved, sheet};

use crate::clock;

/// How many times extraction is repeated to be timed.
const EXTRACTIONS: u32 = 200;

pub struct Walbryts {
    sheet: Vec<u8>,
    module: Module,
    /// Rows of 16.
    value: Vec<u32>,
    unknown: Vec<u32>,
}

impl Walbryts {
    pub fn new(bench: &Bench, rows: &[Vec<u32>]) -> Walbryts {
        let sheet = bench.sheet();
        let module = sheet::read(&sheet).expect("an accepted sheet");
        let mut value = Vec::with_capacity(16 * rows.len());
        for row in rows {
            value.push(0);
            value.extend(row);
            value.resize(value.len() + 15 - row.len(), 0);
        }
        let unknown = vec![0; value.len()];
        Walbryts { sheet, module, value, unknown }
    }

    /// Clock cycles by events from the start; registers and wires at the end, and the seconds.
    pub fn events(&self, cycles: usize) -> (Vec<String>, f64) {
        let mut state = [0; SAVED];
        assert_eq!(library::start(&self.sheet, MOST, &mut state), 0);
        assert_eq!(library::run_plain(&self.sheet, &mut state, 0, u16::MAX).1, 0);
        let (value, unknown) = (&self.value[..16 * cycles], &self.unknown[..16 * cycles]);
        let run = || library::run_cycles(&self.sheet, &mut state, 0, value, unknown);
        let (done, seconds) = clock::of_call(run);
        assert_eq!(done, (2 * cycles, 0));
        let state = saved::load(&state).expect("a saved state");
        let Module { inputs, widths, .. } = &self.module;
        (shown(&state.values[usize::from(*inputs)..widths.len()]), seconds)
    }

    /// Extraction and clock cycles by expressions from the start, as one; the registers at the end,
    /// and the seconds of the cycles alone.
    pub fn expressions(&self, cycles: usize) -> (Vec<String>, f64) {
        let (mut nodes, mut rows) = (vec![0; NODE_WORDS], vec![0; ROW_WORDS]);
        assert_eq!(library::extract(&self.sheet, &mut nodes, &mut rows), 0);
        let marks = |variable| mask(self.module.widths.get(variable).copied().unwrap_or(32));
        let mut planes = Planes {
            value: [0; REGISTERS],
            unknown: std::array::from_fn(|r| marks(usize::from(self.module.inputs) + r)),
            places: [0; PLACES],
            wire: [0; MARKS],
            unsure: [u32::MAX; MARKS],
        };
        let (value, unknown) = (&self.value[..16 * cycles], &self.unknown[..16 * cycles]);
        let run = || library::cycles(&self.sheet, &nodes, &rows, &mut planes, value, unknown);
        let (done, seconds) = clock::of_call(run);
        assert_eq!(done, (cycles, 0));
        (shown(&planes.lane().registers[..self.module.registers.into()]), seconds)
    }

    /// The seconds of one extraction, reading included.
    pub fn extraction(&self) -> f64 {
        let (mut nodes, mut rows) = (vec![0; NODE_WORDS], vec![0; ROW_WORDS]);
        let run = || {
            for _ in 0..EXTRACTIONS {
                let sheet = black_box(&self.sheet[..]);
                assert_eq!(library::extract(sheet, &mut nodes, &mut rows), 0);
            }
        };
        clock::of_call(run).1 / f64::from(EXTRACTIONS)
    }
}

fn shown(slots: &[Value]) -> Vec<String> {
    let text = |value: &Value| value.as_known().map_or("x".into(), |n| n.to_string());
    slots.iter().map(text).collect()
}
