//! States that fit a module and that no run need have come to: what [9] and [10] claim holds from these too.

use crate::machine::Machine;
use crate::pseudocode::Instruction;
use crate::random::Random;
use crate::state::{MOST, Pending, State};
use crate::states::fitting_value;
use crate::value::Value;

/// Values that fit, each thread at any of its instructions, wires due or not, nothing pending.
pub fn anywhere(machine: &Machine, random: &mut Random) -> State {
    let module = machine.module();
    let mut state = State { allowances: MOST, ..State::ZERO };
    for (slot, &width) in state.values.iter_mut().zip(&module.widths) {
        *slot =
            if random.chance(1, 8) { Value::x(width) } else { fitting_value(width, random) };
    }
    for (place, code) in state.places.iter_mut().zip(machine.code()) {
        *place = random.below(code.len()) as u8;
    }
    for due in &mut state.due[..module.wires.len()] {
        *due = random.chance(1, 2);
    }
    state
}

/// The same with each thread at one of its waits and no wire due: quiet. There is none where a
/// thread has no wait.
pub fn at_rest(machine: &Machine, random: &mut Random) -> Option<State> {
    let mut state = anywhere(machine, random);
    for (place, code) in state.places.iter_mut().zip(machine.code()) {
        let waits = (0..=u8::MAX).zip(code).filter(|(_, i)| matches!(i, Instruction::Wait(_)));
        let waits: Vec<u8> = waits.map(|(place, _)| place).collect();
        if waits.is_empty() {
            return None;
        }
        *place = random.pick(&waits);
    }
    state.due.fill(false);
    Some(state)
}

/// Some registers get a pending value, one of them surely.
pub fn pend(state: &mut State, machine: &Machine, random: &mut Random) {
    let module = machine.module();
    let widths = &module.widths[module.inputs.into()..][..module.registers.into()];
    let one = random.below(widths.len());
    for (register, &width) in widths.iter().enumerate() {
        if register == one || random.chance(1, 3) {
            state.pending[register] = Pending::of(fitting_value(width, random));
        }
    }
}
