//! What a cycle run may be handed: registers, places and inputs, good and bad.

use crate::compiler::Lane;
use crate::extraction::REGISTERS;
use crate::extraction::text::Thread;
use crate::module::Module;
use crate::random::Random;
use crate::state::{MARKS, PLACES};
use crate::states::{any_value, fitting_value, value};
use crate::value::Value;

/// Registers and places that fit the module; anything past the sheet's and for the wires.
pub fn fitting(module: &Module, random: &mut Random) -> Lane {
    let mut lane = anything(random);
    let widths = &module.widths[module.inputs.into()..][..module.registers.into()];
    for (register, &width) in lane.registers.iter_mut().zip(widths) {
        *register = fitting_value(width, random);
    }
    for (place, thread) in lane.places.iter_mut().zip(Thread::all(module)) {
        // A thread without waits has no place that fits.
        let waits = if thread.waits.is_empty() { &[0] } else { &thread.waits[..] };
        *place = random.pick(waits);
    }
    lane
}

/// Any registers, places and wires.
pub fn anything(random: &mut Random) -> Lane {
    Lane {
        registers: [(); REGISTERS].map(|()| any_value(random)),
        places: [(); PLACES].map(|()| random.byte()),
        wires: [(); MARKS].map(|()| any_value(random)),
    }
}

/// The lane with one register or place changed: it may fit afterwards or not.
pub fn disturb(lane: &mut Lane, module: &Module, random: &mut Random) {
    match random.chance(1, 2) {
        true => {
            let register = random.below((usize::from(module.registers) + 1).min(REGISTERS));
            let width = module.widths
                [usize::from(module.inputs) + register.min(usize::from(module.registers) - 1)];
            lane.registers[register] = value(width, random);
        }
        false => {
            let thread = random.below((module.threads.len() + 1).min(PLACES));
            lane.places[thread] = match random.chance(3, 4) {
                true => random.below(12) as u8,
                false => random.byte(),
            };
        }
    }
}

/// Inputs from 1 up that fit.
pub fn inputs(module: &Module, random: &mut Random) -> Vec<Value> {
    let widths = &module.widths[1..module.inputs.into()];
    widths.iter().map(|&width| fitting_value(width, random)).collect()
}

/// Inputs of any number, often too wide.
pub fn bad_inputs(module: &Module, random: &mut Random) -> Vec<Value> {
    let mut inputs = inputs(module, random);
    let length = match random.below(6) {
        0 => inputs.len() + 1,
        1 => inputs.len().saturating_sub(1),
        2 => random.pick(&[0, 15, 16, 17, 255]),
        _ => inputs.len(),
    };
    inputs.resize(length, Value::ZERO);
    if !inputs.is_empty() && random.chance(2, 3) {
        let input = random.below(inputs.len());
        let width = module.widths.get(1 + input).copied().unwrap_or(32);
        inputs[input] = value(width, random);
    }
    inputs
}

/// Inputs for some cycles, of the right number, one of them now and then too wide.
pub fn some_inputs(module: &Module, random: &mut Random) -> Vec<Vec<Value>> {
    let mut rows: Vec<Vec<Value>> =
        (0..random.below(5)).map(|_| inputs(module, random)).collect();
    if !rows.is_empty() && module.inputs > 1 && random.chance(1, 4) {
        let row = random.below(rows.len());
        let input = random.below(rows[row].len());
        rows[row][input] = value(module.widths[1 + input], random);
    }
    rows
}
