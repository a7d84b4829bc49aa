//! Values as the library takes and gives them: numbers and marks apart.

use crate::compiler::Lane;
use crate::extraction::REGISTERS;
use crate::state::{MARKS, PLACES};
use crate::value::Value;

/// A count, and so many inputs; the first 16 where there are more.
pub struct Inputs {
    pub count: u8,
    pub value: [u32; 16],
    pub unknown: [u32; 16],
}

/// Registers, places and wires.
pub struct Planes {
    pub value: [u32; REGISTERS],
    pub unknown: [u32; REGISTERS],
    pub places: [u8; PLACES],
    pub wire: [u32; MARKS],
    pub unsure: [u32; MARKS],
}

impl Inputs {
    /// What isn't there is 0.
    pub fn of(inputs: &[Value]) -> Inputs {
        let count = u8::try_from(inputs.len()).expect("at most 255 values");
        let (value, unknown) = apart(inputs);
        Inputs { count, value, unknown }
    }
}

impl Planes {
    pub fn of(lane: &Lane) -> Planes {
        let (value, unknown) = apart(&lane.registers);
        let (wire, unsure) = apart(&lane.wires);
        Planes { value, unknown, places: lane.places, wire, unsure }
    }

    pub fn lane(&self) -> Lane {
        let registers = together(&self.value, &self.unknown);
        Lane { registers, places: self.places, wires: together(&self.wire, &self.unsure) }
    }
}

/// The inputs from 1 up in rows of 16. What stands for the clock and past the inputs isn't
/// looked at.
pub fn rows_of_16(inputs: &[Vec<Value>]) -> (Vec<u32>, Vec<u32>) {
    let other = Value { unknown: 5, number: 7 };
    let mut slots = Vec::new();
    for row in inputs {
        slots.push(other);
        slots.extend(row);
        slots.resize(slots.len().next_multiple_of(16), other);
    }
    slots.iter().map(|slot| (slot.number, slot.unknown)).unzip()
}

/// Numbers and marks; 0 past the last value.
fn apart<const N: usize>(slots: &[Value]) -> ([u32; N], [u32; N]) {
    let (mut value, mut unknown) = ([0; N], [0; N]);
    for (i, slot) in slots.iter().take(N).enumerate() {
        (value[i], unknown[i]) = (slot.number, slot.unknown);
    }
    (value, unknown)
}

fn together<const N: usize>(value: &[u32; N], unknown: &[u32; N]) -> [Value; N] {
    std::array::from_fn(|i| Value { unknown: unknown[i], number: value[i] })
}
