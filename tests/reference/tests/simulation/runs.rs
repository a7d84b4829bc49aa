//! The two runs.

use reference::lively::{self, Kind, Size};
use reference::machine::COMMIT;
use reference::module::Stmt;
use reference::random::Random;
use reference::simulator::{PlainRun, Run, Simulator, Verdict};
use reference::state::{MOST, Pending, State};
use reference::states;

use reference::build::{CLK, any, at_clk, known, later, module, num, set, v};
use reference::value::Value;

/// Two wires, of which the second reads the first: one choice each, then quiet.
#[test]
fn the_words_of_the_plain_run() {
    let wires = vec![(8, num(8, 1)), (8, v(2))];
    let reading = module(&[1], &[8], wires, vec![Stmt::posedge(CLK)]);
    let simulator = Simulator::new(&reading);
    let start = simulator.start(MOST).expect("read");
    let plain = |from: &State, limit| {
        let mut state = from.clone();
        let PlainRun { accepted, number, verdict } = simulator.run_plain(&mut state, 0, limit);
        assert_eq!(state.total() - from.total(), accepted.into());
        (accepted, number, verdict)
    };
    assert_eq!(plain(&start, 0), (0, 0, Verdict::Spent));
    assert_eq!(plain(&start, 1), (1, 0, Verdict::Spent));
    assert_eq!(plain(&start, 2), (2, 0, Verdict::Quiet));
    assert_eq!(plain(&start, u16::MAX), (2, 0, Verdict::Quiet));
    // Spent where exactly so many ran, also where the allowance is used up; else 47.
    let from = |left| State { allowances: [left, 9, 9, 9], ..start.clone() };
    assert_eq!(plain(&from(0), 0), (0, 0, Verdict::Spent));
    assert_eq!(plain(&from(0), 1), (0, 47, Verdict::Full));
    assert_eq!(plain(&from(1), 1), (1, 0, Verdict::Spent));
    assert_eq!(plain(&from(1), 2), (1, 47, Verdict::Full));
    assert_eq!(plain(&from(2), 2), (2, 0, Verdict::Quiet));
    assert_eq!(plain(&from(u32::MAX), 2), (2, 0, Verdict::Quiet));
    // Quiet before all.
    let mut quiet = start.clone();
    simulator.run_plain(&mut quiet, 0, 9);
    assert_eq!(plain(&quiet, 0), (0, 0, Verdict::Quiet));
    quiet.allowances[0] = 2;
    assert_eq!(plain(&quiet, 0), (0, 0, Verdict::Quiet));
    assert_eq!(plain(&quiet, 9), (0, 0, Verdict::Quiet));
    // A state with something pending isn't quiet.
    quiet.pending[0] = Pending { held: true, slot: Value::ZERO };
    assert_eq!(plain(&quiet, 0), (0, 0, Verdict::Spent));
    assert_eq!(plain(&quiet, 1), (0, 47, Verdict::Full));
    quiet.places[0] = 2;
    assert_eq!(plain(&quiet, 1), (0, 31, Verdict::Refused));
}

/// A thread without a wait goes round and round.
#[test]
fn a_thread_that_never_waits() {
    let reading = module(&[1], &[8], vec![], vec![Stmt::Empty]);
    let simulator = Simulator::new(&reading);
    let mut state = simulator.start(MOST).expect("read");
    let run = simulator.run_plain(&mut state, 0, u16::MAX);
    assert_eq!((run.accepted, run.number, run.verdict), (u16::MAX, 0, Verdict::Spent));
    assert_eq!(
        state,
        State { counts: [u16::MAX.into(), 0, 0, 0], ..State::start(&[1, 8], 0, MOST) }
    );
}

/// The lowest item goes first: threads before wires, and the commit last of all.
#[test]
fn the_lowest_goes_first() {
    let [r, s] = [1, 2];
    let threads =
        vec![Stmt::sequence(any(&[r]), set(s, v(r))), at_clk(vec![later(r, num(8, 1))])];
    let reading = module(&[1], &[8, 8], vec![(8, v(r)), (8, v(3))], threads);
    let simulator = Simulator::new(&reading);
    let machine = simulator.machine().expect("read");
    let mut state = simulator.start(MOST).expect("read");
    let mut taken = Vec::new();
    for instant in 0..2 {
        while !machine.quiet(&state) {
            taken.push(machine.lowest(&state));
            simulator.run_plain(&mut state, 0, 1);
        }
        if instant == 0 {
            simulator.instant(&mut state, &known(&[1])).expect("quiet");
        }
    }
    // Start: both wires. Rise: thread 1, commit, thread 0, wires.
    assert_eq!(taken, [2, 3, 1, 1, COMMIT, 0, 0, 2, 3]);
}

/// A run over a list is its choices one by one, up to the first that is refused.
#[test]
fn a_run_is_its_choices() {
    let mut random = Random::new(5);
    with_random_states(&mut random, |simulator, state, random| {
        let machine = simulator.machine().expect("made");
        let items = machine.items();
        let list: Vec<u8> = (0..random.below(12))
            .map(|_| match random.below(6) {
                0 => random.pick(&[COMMIT, items as u8]),
                1 => random.below(items) as u8,
                _ => machine.lowest(state),
            })
            .collect();
        let mut one_by_one = state.clone();
        let mut expected = Run { accepted: 0, number: 0 };
        for &choice in &list {
            match simulator.choose(&mut one_by_one, 0, choice) {
                Ok(()) => expected.accepted += 1,
                Err(number) => {
                    expected.number = number;
                    break;
                }
            }
        }
        assert_eq!(simulator.run(state, 0, &list), expected);
        assert_eq!(state, &one_by_one);
    });
}

/// The plain run is the run over the choices that it takes.
#[test]
fn the_plain_run_is_a_run() {
    let mut random = Random::new(6);
    with_random_states(&mut random, |simulator, state, random| {
        let machine = simulator.machine().expect("made");
        let limit = random.below(20) as u16;
        let mut taken = Vec::new();
        let mut one_by_one = state.clone();
        while taken.len() < limit.into() && !machine.quiet(&one_by_one) {
            taken.push(machine.lowest(&one_by_one));
            simulator.choose(&mut one_by_one, 0, taken[taken.len() - 1]).expect("allowed");
        }
        let run = simulator.run_plain(state, 0, limit);
        assert_eq!(state, &one_by_one);
        assert_eq!((usize::from(run.accepted), run.number), (taken.len(), 0));
        let quiet = machine.quiet(state);
        assert_eq!(run.verdict, if quiet { Verdict::Quiet } else { Verdict::Spent });
    });
}

/// Runs the check in states along the way of random modules, which it may lead on.
fn with_random_states(
    random: &mut Random,
    check: impl Fn(&Simulator, &mut State, &mut Random),
) {
    for _ in 0..150 {
        let module = lively::module(Kind::Events, Size::Usual, random);
        let widths = module.widths[..module.inputs.into()].to_vec();
        let reading = Ok(module);
        let simulator = Simulator::new(&reading);
        let mut state = simulator.start(MOST).expect("made");
        for _ in 0..12 {
            check(&simulator, &mut state, random);
            let inputs: Vec<Value> =
                widths.iter().map(|&width| states::fitting_value(width, random)).collect();
            // Refused where the state isn't quiet.
            let _ = simulator.instant(&mut state, &inputs);
        }
    }
}
