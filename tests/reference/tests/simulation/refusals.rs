//! Each number on its condition, in its order, and the state handed back as it was.

use reference::lively::{self, Kind, Size};
use reference::machine::COMMIT;
use reference::module::{Module, Stmt};
use reference::random::Random;
use reference::sheet::{Refusal, read};
use reference::simulator::{Run, Simulator, Verdict};
use reference::state::{MOST, Pending, State};
use reference::states;

use reference::build::{any, known, later, module, v};
use reference::value::Value;

/// Clock, input of 4 bits; register of 4 bits; wire of 4 bits. Thread 0 waits for the
/// register, thread 1 for the input and assigns it later.
fn two_threads() -> Result<Module, Refusal> {
    let threads = vec![any(&[2]), Stmt::sequence(any(&[1]), later(2, v(1)))];
    module(&[1, 4], &[4], vec![(4, v(2))], threads)
}

fn refused(simulator: &Simulator, state: &State, choice: u8) -> u8 {
    let mut after = state.clone();
    let number = simulator.choose(&mut after, 0, choice).expect_err("refused");
    assert_eq!(&after, state, "a refused choice alters nothing");
    let run = simulator.run(&mut after, 0, &[choice, choice]);
    assert_eq!(run, Run { accepted: 0, number });
    assert_eq!(&after, state, "a run that is stopped at once alters nothing");
    number
}

fn refused_instant(simulator: &Simulator, state: &State, inputs: &[Value]) -> u8 {
    let mut after = state.clone();
    let number = simulator.instant(&mut after, inputs).expect_err("refused");
    assert_eq!(&after, state, "a refused instant alters nothing");
    number
}

#[test]
fn choices() {
    let reading = two_threads();
    let simulator = Simulator::new(&reading);
    let start = simulator.start(MOST).expect("read");
    // Items are threads 0 and 1 and wire 2.
    for choice in 3..COMMIT {
        assert_eq!(refused(&simulator, &start, choice), 22);
    }
    assert_eq!([0, 1].map(|choice| refused(&simulator, &start, choice)), [33, 33]);
    // The wire is due: 34 before 35.
    assert_eq!(refused(&simulator, &start, COMMIT), 34);
    let mut rested = start.clone();
    simulator.choose(&mut rested, 0, 2).expect("due");
    assert_eq!(refused(&simulator, &rested, 2), 33);
    assert_eq!(refused(&simulator, &rested, COMMIT), 35);
    // 47 comes last.
    let full = State { allowances: [0, 9, 9, 9], ..start };
    assert_eq!(
        [2, 0, 3, COMMIT].map(|choice| refused(&simulator, &full, choice)),
        [47, 33, 22, 34]
    );
    let mut pending = State { allowances: [1, 9, 9, 9], ..rested };
    assert_eq!(refused(&simulator, &pending, COMMIT), 35);
    pending.pending[0].held = true;
    assert_eq!(refused(&simulator, &pending, COMMIT), 47);
    // 31 comes first.
    pending.places[0] = 2;
    assert_eq!([0, 2, 3, COMMIT].map(|choice| refused(&simulator, &pending, choice)), [31; 4]);
}

#[test]
fn instants() {
    let reading = two_threads();
    let simulator = Simulator::new(&reading);
    let start = simulator.start(MOST).expect("read");
    let good = known(&[0, 15]);
    for bad in [vec![], known(&[0]), known(&[0, 1, 0]), known(&[2, 0]), known(&[0, 16])] {
        assert_eq!(refused_instant(&simulator, &start, &bad), 25);
    }
    assert_eq!(refused_instant(&simulator, &start, &good), 32);
    let mut rested = start.clone();
    simulator.run_plain(&mut rested, 0, 10);
    let mut pending = rested.clone();
    pending.pending[0].held = true;
    assert_eq!(refused_instant(&simulator, &pending, &good), 32);
    // 25 before 32 before 36; used-up allowances don't matter.
    let used_up = [1, 0, 0, 0];
    let full = State { time: u64::MAX, allowances: used_up, ..rested.clone() };
    assert_eq!(refused_instant(&simulator, &full, &known(&[0])), 25);
    assert_eq!(refused_instant(&simulator, &full, &good), 36);
    let full = State { time: u64::MAX, ..start.clone() };
    assert_eq!(refused_instant(&simulator, &full, &good), 32);
    let mut unfit = full;
    unfit.due[1] = true;
    assert_eq!(refused_instant(&simulator, &unfit, &known(&[0])), 31);
    // Marks that are too wide; a number under a mark.
    for bad in [Value { number: 0, unknown: 16 }, Value { number: 3, unknown: 1 }] {
        assert_eq!(refused_instant(&simulator, &rested, &[Value::known(0), bad]), 25);
    }
    // Any value of the clock, and some bits of another input.
    let mut state = State { time: u64::MAX - 1, allowances: used_up, ..rested };
    let some = Value { number: 9, unknown: 6 };
    assert_eq!(simulator.instant(&mut state, &[Value::x(1), some]), Ok(()));
    assert_eq!((state.time, state.counts), (u64::MAX, [1, 0, 0, 0]));
}

/// What makes a state unfit, and what isn't looked at.
#[test]
fn states_that_fit() {
    let reading = two_threads();
    let simulator = Simulator::new(&reading);
    let start = simulator.start(MOST).expect("read");
    let number = |change: &dyn Fn(&mut State)| {
        let mut state = start.clone();
        change(&mut state);
        simulator.judged(&state).err().unwrap_or(0)
    };
    let held = |number| Pending { held: true, slot: Value::known(number) };
    assert_eq!(number(&|s| s.values[3] = Value::known(15)), 0);
    assert_eq!(number(&|s| s.values[3] = Value::known(16)), 31);
    assert_eq!(number(&|s| s.values[3] = Value { number: 5, unknown: 10 }), 0);
    assert_eq!(number(&|s| s.values[3] = Value { number: 5, unknown: 26 }), 31);
    assert_eq!(number(&|s| s.values[3] = Value { number: 5, unknown: 11 }), 31);
    assert_eq!(number(&|s| s.values[4] = Value { number: 5, unknown: u32::MAX }), 0);
    assert_eq!(number(&|s| s.values[4] = Value::known(u32::MAX)), 0);
    assert_eq!(number(&|s| s.pending[0] = held(15)), 0);
    assert_eq!(number(&|s| s.pending[0] = held(16)), 31);
    assert_eq!(number(&|s| s.pending[0] = Pending { held: false, ..held(16) }), 0);
    let half = |held, number, unknown| Pending { held, slot: Value { number, unknown } };
    assert_eq!(number(&|s| s.pending[0] = half(true, 5, 10)), 0);
    assert_eq!(number(&|s| s.pending[0] = half(true, 5, 26)), 31);
    assert_eq!(number(&|s| s.pending[0] = half(true, 5, 11)), 31);
    assert_eq!(number(&|s| s.pending[0] = half(false, 5, 27)), 0);
    assert_eq!(number(&|s| s.pending[1] = held(0)), 31);
    assert_eq!(number(&|s| s.pending[31] = held(0)), 31);
    // Thread 0 has two instructions, thread 1 three.
    assert_eq!(number(&|s| s.places[0] = 1), 0);
    assert_eq!(number(&|s| s.places[0] = 2), 31);
    assert_eq!(number(&|s| s.places[1] = 2), 0);
    assert_eq!(number(&|s| s.places[1] = 3), 31);
    assert_eq!(number(&|s| s.places[2] = 255), 0);
    assert_eq!(number(&|s| s.due[0] = false), 0);
    assert_eq!(number(&|s| s.due[1] = true), 31);
    assert_eq!(number(&|s| s.due[31] = true), 31);
    // A count may be its allowance, not above it.
    for user in 0..4 {
        assert_eq!(number(&|s| s.counts[user] = u32::MAX.into()), 0);
        assert_eq!(number(&|s| s.counts[user] = 1 << 32), 31);
        assert_eq!(number(&|s| (s.counts[user], s.allowances[user]) = (7, 7)), 0);
        assert_eq!(number(&|s| (s.counts[user], s.allowances[user]) = (7, 6)), 31);
    }
}

/// A sheet that isn't read refuses every call with its number, whatever the state.
#[test]
fn sheets() {
    for (sheet, number) in [(vec![], 2), (vec![0], 3), (vec![0; 8193], 1)] {
        let reading = read(&sheet);
        let simulator = Simulator::new(&reading);
        let mut random = Random::new(7);
        for state in [State::ZERO, states::noise(&mut random)] {
            assert_eq!(simulator.start(MOST), Err(number));
            assert_eq!(refused(&simulator, &state, 0), number);
            assert_eq!(refused_instant(&simulator, &state, &[]), number);
            let mut after = state.clone();
            let run = simulator.run_plain(&mut after, 0, 5);
            assert_eq!((run.accepted, run.number, run.verdict), (0, number, Verdict::Refused));
            assert_eq!(after, state);
        }
    }
}

/// On random states, littered and disturbed: a refused call hands back every field, an
/// accepted one leaves alone what lies past the sheet's.
#[test]
fn random_states() {
    let mut random = Random::new(11);
    for kind in [Kind::Extractable, Kind::Events] {
        for _ in 0..100 {
            let reading = Ok(lively::module(kind, Size::Usual, &mut random));
            let simulator = Simulator::new(&reading);
            let module = reading.as_ref().expect("made");
            let mut state = simulator.start(MOST).expect("read");
            for _ in 0..40 {
                states::litter(&mut state, module, &mut random);
                let mut disturbed = state.clone();
                states::disturb(&mut disturbed, Some(module), &mut random);
                alters_nothing_else(&simulator, &disturbed, module, &mut random);
                alters_nothing_else(&simulator, &state, module, &mut random);
                simulator.run_plain(&mut state, 0, random.below(9) as u16);
                let inputs: Vec<Value> = (0..usize::from(module.inputs))
                    .map(|input| states::value(module.widths[input], &mut random))
                    .collect();
                let before = state.clone();
                if simulator.instant(&mut state, &inputs).is_err() {
                    assert_eq!(state, before);
                }
            }
        }
    }
}

fn alters_nothing_else(
    simulator: &Simulator,
    state: &State,
    module: &Module,
    random: &mut Random,
) {
    let items = module.threads.len() + module.wires.len();
    let any = random.byte();
    for choice in (0..=items as u8).chain([any, COMMIT]) {
        let mut after = state.clone();
        if simulator.choose(&mut after, 0, choice).is_err() {
            assert_eq!(&after, state);
            continue;
        }
        let (variables, threads) = (module.widths.len(), module.threads.len());
        assert_eq!(after.values[variables..], state.values[variables..]);
        assert_eq!(after.places[threads..], state.places[threads..]);
        for (after, before) in after.pending.iter().zip(&state.pending) {
            assert!(after.held || after.slot == before.slot);
        }
        assert!(
            simulator.judged(&after).is_ok(),
            "an accepted choice leaves a state that fits"
        );
    }
}
