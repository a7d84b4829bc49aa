//! Two bench modules side by side, by turns of one clock cycle each: `cargo run --example side_by_side`.
//!
//! Each module has its own readings to work off and is busy while some are left. The dispatcher says
//! whose turn it is; once the watchdog is done, the counter has every turn.

use std::error::Error;

use walbryts::{Record, Rows, Sheet, State, USERS, dispatch};

/// A module, its state and the inputs of the cycles that it has yet to run, the next one last.
struct Module {
    name: &'static str,
    sheet: Sheet,
    state: State,
    cycles: Vec<Vec<u32>>,
}

impl Module {
    fn new(name: &'static str, hex: &str, cycles: &[&[u32]]) -> Result<Module, Box<dyn Error>> {
        let bytes: Result<Vec<u8>, _> =
            hex.split_whitespace().map(|digits| u8::from_str_radix(digits, 16)).collect();
        let sheet = Sheet::read(&bytes?)?;
        let mut state = sheet.start([u32::MAX; USERS]);
        sheet.run_plain(&mut state, 0, u16::MAX)?;
        let cycles = cycles.iter().rev().map(|inputs| inputs.to_vec()).collect();
        Ok(Module { name, sheet, state, cycles })
    }

    /// One clock cycle by events.
    fn turn(&mut self) -> Result<(), Box<dyn Error>> {
        let mut rows = Rows::new(&self.sheet);
        rows.push(self.cycles.pop().unwrap_or_default())?;
        match self.sheet.run_cycles(&mut self.state, 0, &rows)?.stopped {
            None => Ok(()),
            Some(refusal) => Err(refusal.into()),
        }
    }
}

fn main() -> Result<(), Box<dyn Error>> {
    // Counter: reset, enabled. Watchdog: reset, reading, limit, acknowledged.
    let counter: [&[u32]; 6] = [&[1, 0], &[0, 1], &[0, 1], &[0, 0], &[0, 1], &[0, 1]];
    let watchdog: [&[u32]; 4] = [&[1, 0, 3, 0], &[0, 7, 3, 0], &[0, 7, 3, 0], &[0, 7, 3, 0]];
    let mut modules = [
        Module::new("counter", include_str!("../../tests/data/counter.hex"), &counter)?,
        Module::new("watchdog", include_str!("../../tests/data/watchdog.hex"), &watchdog)?,
    ];
    let mut records = [Record::default(); 2];
    let mut last = 1;
    println!("turn module   turns registers");
    for turn in 0.. {
        for (record, module) in records.iter_mut().zip(&modules) {
            record.busy = !module.cycles.is_empty();
        }
        let Some(picked) = dispatch(&mut records, last)? else {
            println!("{turn:>4} none");
            break;
        };
        last = picked;
        let module = &mut modules[usize::from(picked)];
        module.turn()?;
        let turns = records[usize::from(picked)].turns;
        let registers =
            (0..module.sheet.registers()).map(|register| module.sheet.register(register));
        let shown =
            |register| module.state.value(register).shown(module.sheet.widths()[register]);
        let registers = registers.map(shown).collect::<Vec<_>>().join(" ");
        println!("{turn:>4} {:<8} {turns:>5} {registers}", module.name);
    }
    Ok(())
}
