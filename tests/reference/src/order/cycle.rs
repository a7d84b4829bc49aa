//! The cycle run held to the book.

use crate::book::Book;
use crate::calls::Calls;
use crate::compiler::Lane;
use crate::extraction::{Extraction, NODE_WORDS, REGISTERS, ROW_WORDS};
use crate::module::Module;
use crate::state::{MARKS, PLACES};
use crate::value::Value;

/// On extraction's tables, handed the book's registers and places before a cycle and that
/// cycle's inputs from 1 up, it gives the book's registers, places and wires after it. How
/// many cycles were run.
pub fn check(
    calls: &impl Calls,
    module: &Module,
    extraction: &Extraction,
    rows: &[Vec<Value>],
) -> Result<u64, String> {
    let (mut nodes, mut entries) = (vec![1; NODE_WORDS], vec![1; ROW_WORDS]);
    match calls.extract(&mut nodes, &mut entries) {
        0 => {}
        number => return Err(format!("extraction is refused with {number}")),
    }
    let mut book = Book::new(module, extraction);
    for (cycle, row) in rows.iter().enumerate() {
        let mut lane = of_book(module, &book);
        for clock in [0, 1] {
            book.instant(&[&[Value::known(clock)], &row[..]].concat());
        }
        let number = calls.cycle(&nodes, &entries, &mut lane, row);
        let expected = of_book(module, &book);
        if (number, &lane) != (0, &expected) {
            let found = format!("{number} {lane:?}");
            return Err(format!("cycle run {cycle}: {found}, not {expected:?}"));
        }
    }
    Ok(rows.len() as u64)
}

/// The book's registers, places and wires; x and 0 past the sheet's.
fn of_book(module: &Module, book: &Book) -> Lane {
    let mut lane = Lane {
        registers: [Value::NOWHERE; REGISTERS],
        places: [0; PLACES],
        wires: [Value::NOWHERE; MARKS],
    };
    let first_wire = module.inputs + module.registers;
    let value = |variable| book.values.get(variable);
    let registers = (module.inputs..first_wire).zip(&mut lane.registers);
    registers.for_each(|(variable, slot)| *slot = value(variable));
    let wires = (first_wire..module.widths.len() as u8).zip(&mut lane.wires);
    wires.for_each(|(variable, slot)| *slot = value(variable));
    lane.places[..book.places.len()].copy_from_slice(&book.places);
    lane
}
