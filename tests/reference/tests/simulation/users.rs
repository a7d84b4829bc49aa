//! Four users on one state: each choice is counted for its user alone, and where allowances end
//! in the middle of a phase the rest doesn't depend on who chose what.

use std::collections::BTreeSet;

use reference::lively::{self, Kind, Size};
use reference::machine::{COMMIT, Machine};
use reference::random::Random;
use reference::simulator::{Run, Simulator, Verdict};
use reference::state::{MOST, State, USERS};
use reference::states;

use reference::build::{any, later, module, v};
use reference::module::Stmt;

use crate::orders::resting;
use reference::value::Value;

const EVERYONE: [u8; USERS] = [0, 1, 2, 3];
const MOST_STATES: usize = 100_000;

/// The states in which no choice of any user is accepted, over every order and every user.
fn ends(machine: &Machine, from: &State) -> BTreeSet<State> {
    let mut seen = BTreeSet::from([from.clone()]);
    let mut open = vec![from.clone()];
    let mut ends = BTreeSet::new();
    while let Some(state) = open.pop() {
        let mut stuck = true;
        for user in EVERYONE {
            for choice in machine.enabled(&state).chain([COMMIT]) {
                let mut next = state.clone();
                if machine.choose(&mut next, user, choice).is_ok() {
                    stuck = false;
                    assert_eq!(next.total(), state.total() + 1);
                    if seen.insert(next.clone()) {
                        open.push(next);
                    }
                }
            }
        }
        assert!(seen.len() < MOST_STATES, "too many states");
        if stuck {
            ends.insert(state);
        }
    }
    ends
}

fn uncounted(state: &State) -> State {
    State { counts: [0; USERS], allowances: MOST, ..state.clone() }
}

/// The choices of the plain run to rest.
fn length(simulator: &Simulator, from: &State) -> u32 {
    let run = simulator.run_plain(&mut from.clone(), 0, u16::MAX);
    assert_eq!(run.verdict, Verdict::Quiet);
    run.accepted.into()
}

/// In each phase of tiny modules one user's allowance ends after every number of choices. Where
/// another goes on, every order and every division comes to the one rest; where none does, a
/// state that isn't quiet takes no choice and no instant.
#[test]
fn allowances_end_in_the_middle_of_a_phase() {
    let mut random = Random::new(23);
    let (mut divided, mut left) = (0, 0);
    for _ in 0..40 {
        let reading = Ok(lively::module(Kind::Extractable, Size::Tiny, &mut random));
        let simulator = Simulator::new(&reading);
        let machine = simulator.machine().expect("made");
        let mut state = simulator.start(MOST).expect("made");
        let widths = &machine.module().widths[1..machine.module().inputs.into()];
        let mut inputs = vec![Value::ZERO];
        for phase in 0..5 {
            let rest = resting(machine, &state);
            let [rest] = &rest[..] else { panic!("one rest") };
            for cut in 0..=length(&simulator, &state).min(6) {
                let other = random.between(1, 3);
                let mut allowances = [cut, 0, 0, 0];
                let alone = State { counts: [0; USERS], allowances, ..state.clone() };
                for end in ends(machine, &alone) {
                    left += usize::from(!machine.quiet(&end));
                    unless_quiet(&simulator, &end);
                }
                allowances[other] = u32::MAX;
                for end in ends(machine, &State { allowances, ..alone }) {
                    assert_eq!(&uncounted(&end), rest);
                    assert!(end.counts[0] <= cut.into());
                    divided += usize::from(cut > 0 && end.counts[other] > 0);
                }
            }
            state = rest.clone();
            inputs[0] = Value::known(phase % 2);
            if phase % 2 == 0 {
                let drawn =
                    widths.iter().map(|&width| states::fitting_value(width, &mut random));
                inputs = [inputs[0]].into_iter().chain(drawn).collect();
            }
            simulator.instant(&mut state, &inputs).expect("at rest");
        }
    }
    assert!(divided > 100 && left > 100, "{divided} and {left}");
}

/// 47 for every user, 32 for an instant.
fn unless_quiet(simulator: &Simulator, end: &State) {
    let machine = simulator.machine().expect("made");
    if machine.quiet(end) {
        return;
    }
    for user in EVERYONE {
        let choice = machine.lowest(end);
        assert_eq!(simulator.choose(&mut end.clone(), user, choice), Err(47));
    }
    let inputs = vec![Value::x(1); machine.module().inputs.into()];
    assert_eq!(simulator.instant(&mut end.clone(), &inputs), Err(32));
}

/// Each number in its order: 31, 22, 46, 33 to 35, 47; a run's 46 stands after 31.
#[test]
fn the_order_of_the_numbers() {
    let threads = vec![any(&[2]), Stmt::sequence(any(&[1]), later(2, v(1)))];
    let reading = module(&[1, 4], &[4], vec![(4, v(2))], threads);
    let simulator = Simulator::new(&reading);
    let mut state = simulator.start([0, 1, 1, 1]).expect("read");
    let number = |state: &State, user, choice| {
        let number = simulator.choose(&mut state.clone(), user, choice).err().unwrap_or(0);
        let run = simulator.run(&mut state.clone(), user, &[choice]);
        let expected = if user > 3 { 46 } else { number };
        assert_eq!(run.number, if number == 31 { 31 } else { expected });
        number
    };
    for user in [4, 5, 255] {
        assert_eq!(
            [0, 2, COMMIT, 3, 254].map(|c| number(&state, user, c)),
            [46, 46, 46, 22, 22]
        );
        assert_eq!(simulator.run(&mut state, user, &[]), Run { accepted: 0, number: 46 });
        let plain = simulator.run_plain(&mut state, user, 0);
        assert_eq!((plain.accepted, plain.number, plain.verdict), (0, 46, Verdict::Refused));
    }
    assert_eq!([0, 2, COMMIT, 3].map(|c| number(&state, 0, c)), [33, 47, 34, 22]);
    assert_eq!([0, 2, COMMIT, 3].map(|c| number(&state, 3, c)), [33, 0, 34, 22]);
    simulator.choose(&mut state, 2, 2).expect("due");
    assert_eq!((state.counts, state.allowances), ([0, 0, 1, 0], [0, 1, 1, 1]));
    let plain = simulator.run_plain(&mut state, 4, 0);
    assert_eq!((plain.number, plain.verdict), (46, Verdict::Refused), "at rest too");
    state.counts[3] = 2;
    assert_eq!([0, 2, COMMIT, 3].map(|c| number(&state, 4, c)), [31; 4]);
}
