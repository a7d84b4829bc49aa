//! Every order in which choices can be taken.

use std::collections::BTreeSet;

use reference::machine::Machine;
use reference::state::State;

const MOST_STATES: usize = 100_000;

/// The choices that are accepted in a state.
pub fn accepted(machine: &Machine, state: &State) -> Vec<u8> {
    (0..=255).filter(|&choice| machine.choose(&mut state.clone(), 0, choice).is_ok()).collect()
}

/// All states that accepted choices lead to, from this one on, their counts set to 0.
pub fn reachable(machine: &Machine, from: &State) -> BTreeSet<State> {
    let first = State { counts: [0; 4], ..from.clone() };
    let mut seen = BTreeSet::from([first.clone()]);
    let mut open = vec![first];
    while let Some(state) = open.pop() {
        for choice in accepted(machine, &state) {
            let mut next = state.clone();
            machine.choose(&mut next, 0, choice).expect("accepted");
            next.counts = [0; 4];
            if seen.insert(next.clone()) {
                open.push(next);
            }
        }
        assert!(seen.len() < MOST_STATES, "too many states");
    }
    seen
}

/// The quiet ones among them.
pub fn resting(machine: &Machine, from: &State) -> Vec<State> {
    let states = reachable(machine, from).into_iter();
    states.filter(|state| machine.quiet(state)).collect()
}
