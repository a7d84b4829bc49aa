//! Modules made as extraction asks, driven by cycles: the first clauses of demand 3.
//! Every order comes to the same rest within P + 2^W choices, and the plain run stores
//! each wire at most once after the last change of inputs or registers.

use reference::lively::{self, Kind, Size};
use reference::machine::{Choice, Machine};
use reference::random::Random;
use reference::simulator::Simulator;
use reference::state::{MOST, State};
use reference::states;

use crate::orders::resting;
use reference::value::Value;

#[test]
fn random_orders() {
    let mut random = Random::new(21);
    for _ in 0..120 {
        let reading = Ok(lively::module(Kind::Extractable, Size::Usual, &mut random));
        drive(&Simulator::new(&reading), &mut random, |machine, state, random| {
            let rest = plain_rest(machine, state);
            for _ in 0..4 {
                assert_eq!(
                    without_count(&random_rest(machine, state, random)),
                    without_count(&rest)
                );
            }
            rest
        });
    }
}

#[test]
fn all_orders() {
    let mut random = Random::new(22);
    for _ in 0..60 {
        let reading = Ok(lively::module(Kind::Extractable, Size::Tiny, &mut random));
        drive(&Simulator::new(&reading), &mut random, |machine, state, _| {
            let rest = plain_rest(machine, state);
            assert_eq!(resting(machine, state), [without_count(&rest)]);
            rest
        });
    }
}

/// Some cycles from the start; `settle` says where the state comes to rest.
fn drive(
    simulator: &Simulator,
    random: &mut Random,
    settle: impl Fn(&Machine, &State, &mut Random) -> State,
) {
    let machine = simulator.machine().expect("made");
    let mut state = settle(machine, &simulator.start(MOST).expect("made"), random);
    let widths = &machine.module().widths[1..machine.module().inputs.into()];
    for _ in 0..5 {
        let inputs: Vec<Value> =
            widths.iter().map(|&w| states::fitting_value(w, random)).collect();
        for clock in [0, 1] {
            let inputs = [&[Value::known(clock)], &inputs[..]].concat();
            simulator.instant(&mut state, &inputs).expect("at rest");
            state = settle(machine, &state, random);
        }
    }
}

fn without_count(state: &State) -> State {
    State { counts: [0; 4], ..state.clone() }
}

/// P + 2^W.
fn bound(machine: &Machine) -> u64 {
    let instructions: usize = machine.code().iter().map(Vec::len).sum();
    instructions as u64 + (1 << machine.module().wires.len())
}

/// By the plain run's choices. Between changes of registers each wire is stored at most
/// once.
fn plain_rest(machine: &Machine, from: &State) -> State {
    let module = machine.module();
    let first = usize::from(module.inputs);
    let registers = first..first + usize::from(module.registers);
    let mut last = from.values;
    let mut stored = vec![false; module.wires.len()];
    rest_by(machine, from, |machine, state| {
        if state.values[registers.clone()] != last[registers.clone()] {
            stored.fill(false);
            last = state.values;
        }
        let choice = machine.lowest(state);
        if let Some(Choice::Wire(wire)) = machine.named(choice) {
            assert!(!stored[wire], "wire {wire} is stored again");
            stored[wire] = true;
        }
        choice
    })
}

fn random_rest(machine: &Machine, from: &State, random: &mut Random) -> State {
    rest_by(machine, from, |machine, state| {
        let enabled: Vec<u8> = machine.enabled(state).collect();
        if enabled.is_empty() { machine.lowest(state) } else { random.pick(&enabled) }
    })
}

/// To rest, by choices that are all accepted, within the bound.
fn rest_by(
    machine: &Machine,
    from: &State,
    mut pick: impl FnMut(&Machine, &State) -> u8,
) -> State {
    let mut state = from.clone();
    while !machine.quiet(&state) {
        let choice = pick(machine, &state);
        machine
            .choose(&mut state, 0, choice)
            .expect("enabled, and the allowance isn't used up");
        assert!(state.total() - from.total() <= bound(machine));
    }
    state
}
