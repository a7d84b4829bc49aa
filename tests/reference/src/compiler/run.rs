//! The cycle run on tables that passed.

use super::Lane;
use super::table::Table;
use crate::extraction::text::Thread;
use crate::machine::number;
use crate::module::Module;
use crate::value::Value;
use crate::values::Values;

/// 31: a register that doesn't fit, a place that is no wait of its thread. 25: inputs of wrong
/// number or that don't fit. What lies past the sheet's is not judged.
pub fn judge(
    module: &Module,
    threads: &[Thread],
    lane: &Lane,
    inputs: &[Value],
) -> Result<(), u8> {
    let widths = &module.widths[module.inputs.into()..][..module.registers.into()];
    let mut places = threads.iter().zip(lane.places);
    if !fit(widths, &lane.registers)
        || !places.all(|(thread, place)| thread.waits.contains(&place))
    {
        return Err(number::UNFIT);
    }
    let widths = &module.widths[1..module.inputs.into()];
    match inputs.len() == widths.len() && fit(widths, inputs) {
        true => Ok(()),
        false => Err(number::INPUTS),
    }
}

/// As far as both go.
fn fit(widths: &[u8], slots: &[Value]) -> bool {
    widths.iter().zip(slots).all(|(&width, slot)| slot.fits(width))
}

/// Settles wires, takes the row of each thread's wait for the registers it writes, settles
/// wires again. The clock counts as 1.
pub fn rise(
    module: &Module,
    threads: &[Thread],
    table: &Table,
    lane: &mut Lane,
    inputs: &[Value],
) {
    let mut values = Values::unknown(module);
    values.set(0, Value::known(1));
    (1..).zip(inputs).for_each(|(input, &slot)| values.set(input, slot));
    let registers = module.inputs..module.inputs + module.registers;
    let own = registers.clone().zip(&lane.registers);
    own.for_each(|(register, &slot)| values.set(register, slot));
    values.settle();
    let worked_out = values.of_nodes(&table.nodes);
    let of = |node: u16| worked_out[usize::from(node)];
    let mut first_row = 0;
    for (thread, place) in threads.iter().zip(&mut lane.places) {
        let wait = thread.waits.iter().position(|wait| wait == place);
        let row = first_row + wait.expect("judged");
        for register in thread.registers() {
            let value = of(table.register(row, register));
            lane.registers[register] = value;
            values.set(module.inputs + register as u8, value);
        }
        let next = of(table.place(row)).as_known();
        let next = next.expect("a place entry leads to known constants");
        *place = u8::try_from(next).expect("8 bits");
        first_row += thread.waits.len();
    }
    values.settle();
    for (wire, slot) in (registers.end..module.widths.len() as u8).zip(&mut lane.wires) {
        *slot = values.get(wire);
    }
}
