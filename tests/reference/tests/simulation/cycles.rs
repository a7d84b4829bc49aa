//! The run over rows of inputs.

use reference::cycles::{CyclesRun, Step};
use reference::lively::{self, Kind, Size};
use reference::module::Stmt;
use reference::random::Random;
use reference::samples;
use reference::sheet::read;
use reference::simulator::{Simulator, Verdict};
use reference::state::{MOST, State};
use reference::states;

use reference::build::{CLK, known, module, num, set, values};
use reference::value::Value;

fn rows(numbers: &[&[u32]]) -> Vec<Vec<Value>> {
    numbers.iter().map(|row| known(row)).collect()
}

/// The register follows the input at each rise.
#[test]
fn flip_flop() {
    let reading = read(&samples::FLIP_FLOP.sheet());
    let simulator = Simulator::new(&reading);
    let mut state = simulator.start(MOST).expect("read");
    for number in [5, 5, 200, 0] {
        let run = simulator.run_cycles(&mut state, 0, &rows(&[&[number]]));
        assert_eq!((run.rows, run.number, run.verdict), (1, 0, Verdict::Quiet));
        assert_eq!(values(&state, 3), [Some(1), Some(number), Some(number)]);
    }
    assert_eq!((state.time, state.counts[0]), (8, 3 + 3 + 3 + 3));
}

/// Reset, then 300 cycles with the count enabled: it wraps at 8 bits.
#[test]
fn counter() {
    let reading = read(&samples::COUNTER.sheet());
    let simulator = Simulator::new(&reading);
    let mut state = simulator.start(MOST).expect("read");
    let count = 3;
    simulator.run_cycles(&mut state, 0, &rows(&[&[1, 0]]));
    assert_eq!(values(&state, 4)[count], Some(0));
    let run = simulator.run_cycles(&mut state, 0, &vec![known(&[0, 1]); 300]);
    assert_eq!((run.rows, run.number, run.verdict), (300, 0, Verdict::Quiet));
    assert_eq!(values(&state, 4)[count], Some(300 % 256));
    simulator.run_cycles(&mut state, 0, &vec![known(&[0, 0]); 5]);
    assert_eq!(values(&state, 4)[count], Some(300 % 256));
}

/// It is the instants and plain runs one after the other.
#[test]
fn cycles_are_calls() {
    let mut random = Random::new(8);
    for kind in [Kind::Extractable, Kind::Events] {
        for _ in 0..40 {
            let reading = Ok(lively::module(kind, Size::Usual, &mut random));
            let simulator = Simulator::new(&reading);
            let module = reading.as_ref().expect("made");
            let widths = &module.widths[1..module.inputs.into()];
            let rows: Vec<Vec<Value>> = (0..6)
                .map(|_| {
                    widths.iter().map(|&w| states::fitting_value(w, &mut random)).collect()
                })
                .collect();
            let start = simulator.start(MOST).expect("made");
            let mut state = start.clone();
            let run = simulator.run_cycles(&mut state, 0, &rows);
            let mut repeated = start;
            let expected = one_by_one(&simulator, &mut repeated, &rows);
            assert_eq!((run, state), (expected, repeated));
        }
    }
}

fn one_by_one(simulator: &Simulator, state: &mut State, rows: &[Vec<Value>]) -> CyclesRun {
    let mut verdict = simulator.run_plain(state, 0, u16::MAX).verdict;
    let mut at = Step::First;
    for half in 0..2 * rows.len() {
        let (row, clock) = (half / 2, (half % 2) as u32);
        let inputs = [&[Value::known(clock)], &rows[row][..]].concat();
        if let Err(number) = simulator.instant(state, &inputs) {
            return CyclesRun { rows: row, at: Step::Instant { row, clock }, number, verdict };
        }
        let plain = simulator.run_plain(state, 0, u16::MAX);
        (verdict, at) = (plain.verdict, Step::Rest { row, clock });
        if plain.number != 0 {
            return CyclesRun { rows: row, at, number: plain.number, verdict };
        }
    }
    CyclesRun { rows: rows.len(), at, number: 0, verdict }
}

/// Where it stops.
#[test]
fn stops() {
    let reading = read(&samples::FLIP_FLOP.sheet());
    let simulator = Simulator::new(&reading);
    let start = simulator.start(MOST).expect("read");
    let three = rows(&[&[1], &[2], &[3]]);
    let stop = |from: &State, rows: &[Vec<Value>]| {
        let run = simulator.run_cycles(&mut from.clone(), 0, rows);
        (run.rows, run.at, run.number, run.verdict)
    };
    let instant = |row, clock| Step::Instant { row, clock };
    let (quiet, full) = (Verdict::Quiet, Verdict::Full);
    assert_eq!(stop(&start, &[]), (0, Step::First, 0, quiet));
    assert_eq!(stop(&start, &three), (3, Step::Rest { row: 2, clock: 1 }, 0, quiet));
    // A row too long, and one too wide.
    assert_eq!(stop(&start, &rows(&[&[1], &[2, 2]])), (1, instant(1, 0), 25, quiet));
    assert_eq!(stop(&start, &rows(&[&[256]])), (0, instant(0, 0), 25, quiet));
    // Time is full in the second row's high instant, the allowance used up at the third choice.
    let late = State { time: u64::MAX - 3, ..start.clone() };
    assert_eq!(stop(&late, &three), (1, instant(1, 1), 36, quiet));
    let much = State { allowances: [2, 0, 9, 9], ..start.clone() };
    assert_eq!(stop(&much, &three), (0, Step::Rest { row: 0, clock: 1 }, 47, full));
    let mut unfit = start;
    unfit.places[0] = 3;
    assert_eq!(stop(&unfit, &three), (0, Step::First, 31, Verdict::Refused));
}

/// A plain run that is spent is no refusal, but the instant after it is.
#[test]
fn a_module_that_does_not_rest() {
    let endless = Stmt::sequence(Stmt::posedge(CLK), Stmt::forever(set(1, num(1, 0))));
    let reading = module(&[1], &[1], vec![], vec![endless]);
    let simulator = Simulator::new(&reading);
    let mut state = simulator.start(MOST).expect("read");
    let run = simulator.run_cycles(&mut state, 0, &rows(&[&[]]));
    assert_eq!((run.rows, run.number, run.verdict), (1, 0, Verdict::Spent));
    let run = simulator.run_cycles(&mut state, 0, &rows(&[&[]]));
    assert_eq!((run.rows, run.number, run.verdict), (0, 32, Verdict::Spent));
    assert_eq!(run.at, Step::Instant { row: 0, clock: 0 });
}
