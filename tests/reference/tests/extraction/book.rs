//! The book against the event simulator, in every order, and the cycle run against the book.

use std::collections::BTreeSet;

use reference::book::Book;
use reference::compiler::{Compiler, Lane};
use reference::extraction::extract;
use reference::functions::With;
use reference::lively::{self, Kind, Size};
use reference::machine::Machine;
use reference::module::Module;
use reference::random::Random;
use reference::simulator::Simulator;
use reference::state::{MOST, State};
use reference::states;
use reference::value::Value;

use crate::short::tables;

/// The quiet states that accepted choices lead to, their counts set to 0.
fn resting(machine: &Machine, from: &State) -> Vec<State> {
    let first = uncounted(from);
    let mut seen = BTreeSet::from([first.clone()]);
    let mut open = vec![first];
    while let Some(state) = open.pop() {
        for choice in 0..=255 {
            let mut next = state.clone();
            if machine.choose(&mut next, 0, choice).is_ok() {
                next = uncounted(&next);
                if seen.insert(next.clone()) {
                    open.push(next);
                }
            }
        }
    }
    seen.into_iter().filter(|state| machine.quiet(state)).collect()
}

/// With the counts at 0.
fn uncounted(state: &State) -> State {
    State { counts: [0; 4], ..state.clone() }
}

/// All values and places.
fn agree(module: &Module, state: &State, book: &Book) {
    for variable in 0..module.widths.len() {
        let expected = book.values.get(variable as u8);
        assert_eq!(state.values[variable], expected, "variable {variable}");
    }
    assert_eq!(state.places[..module.threads.len()], book.places[..]);
}

/// What a cycle run is handed of the book.
fn lane(module: &Module, book: &Book) -> Lane {
    let mut lane =
        Lane { registers: [Value::NOWHERE; 32], places: [0; 8], wires: [Value::known(3); 32] };
    for register in 0..module.registers {
        let value = book.values.get(module.inputs + register);
        lane.registers[usize::from(register)] = value;
    }
    lane.places[..book.places.len()].copy_from_slice(&book.places);
    lane
}

/// The same with the wires.
fn outcome(module: &Module, book: &Book) -> Lane {
    let mut lane = Lane { wires: [Value::NOWHERE; 32], ..lane(module, book) };
    let first = module.inputs + module.registers;
    for wire in 0..module.wires.len() {
        lane.wires[wire] = book.values.get(first + wire as u8);
    }
    lane
}

#[test]
fn all_orders() {
    let mut random = Random::new(31);
    let mut extractable = 0;
    while extractable < 300 {
        let with = if extractable < 150 { With::AsRead } else { With::Some };
        let module = lively::module_by(Kind::Extractable, Size::Tiny, with, &mut random);
        let Ok(extraction) = extract(&module) else {
            continue;
        };
        extractable += 1;
        let reading = Ok(module.clone());
        let (simulator, compiler) = (Simulator::new(&reading), Compiler::new(&reading));
        let machine = simulator.machine().expect("made");
        let (nodes, rows) = tables(&module);
        let mut book = Book::new(&module, &extraction);
        let rest = |state: &State| {
            let mut rests = resting(machine, state);
            assert_eq!(rests.len(), 1);
            rests.pop().expect("one")
        };
        let mut state = rest(&simulator.start(MOST).expect("made"));
        agree(&module, &state, &book);
        for _ in 0..5 {
            let widths = &module.widths[1..module.inputs.into()];
            let inputs: Vec<Value> =
                widths.iter().map(|&w| states::fitting_value(w, &mut random)).collect();
            let mut handed = lane(&module, &book);
            for clock in [0, 1] {
                let all = [&[Value::known(clock)], &inputs[..]].concat();
                simulator.instant(&mut state, &all).expect("at rest");
                state = rest(&state);
                book.instant(&all);
                agree(&module, &state, &book);
            }
            compiler.cycle(&nodes, &rows, &mut handed, &inputs).expect("accepted");
            assert_eq!(handed, outcome(&module, &book));
        }
    }
}

/// A clock of x is to the book as one of 0.
#[test]
fn other_clocks() {
    let module = lively::module(Kind::Extractable, Size::Tiny, &mut Random::new(1));
    let extraction = extract(&module).expect("extractable");
    let mut books = [Book::new(&module, &extraction), Book::new(&module, &extraction)];
    let rest = vec![Value::known(1); usize::from(module.inputs) - 1];
    for (book, clock) in books.iter_mut().zip([Value::known(0), Value::x(1)]) {
        book.instant(&[&[clock], &rest[..]].concat());
        book.values.set(0, Value::x(1));
    }
    assert_eq!(books[0].values, books[1].values);
    assert_eq!(books[0].places, books[1].places);
}
