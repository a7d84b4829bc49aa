//! Examples 3.2.1 to 3.2.8 of source document 003. Where it prints another translation
//! than its source text gives, the text decides.

use reference::module::{Module, Stmt};
use reference::pseudocode::{lines, translate_thread};
use reference::sheet::Refusal;
use reference::simulator::Simulator;
use reference::state::{MOST, State};

use crate::orders::resting;
use reference::build::{
    CLK, add, any, at_clk, known, later, module, mux, num, set, state, v, values,
};

type Values = Vec<Option<u32>>;

/// The values in all resting states that an instant leads to, x first.
fn rests(reading: &Result<Module, Refusal>, from: &State, inputs: &[u32]) -> Vec<Values> {
    let simulator = Simulator::new(reading);
    let machine = simulator.machine().expect("read");
    let mut state = from.clone();
    simulator.instant(&mut state, &known(inputs)).expect("quiet");
    let variables = machine.module().widths.len();
    let mut found: Vec<Values> =
        resting(machine, &state).iter().map(|rest| values(rest, variables)).collect();
    found.sort();
    found
}

/// The one resting state that the instant leads to.
fn rest(reading: &Result<Module, Refusal>, from: &State, inputs: &[u32]) -> Values {
    let found = rests(reading, from, inputs);
    assert_eq!(found.len(), 1, "{found:?}");
    found[0].clone()
}

fn listing(reading: &Result<Module, Refusal>, thread: usize) -> Vec<String> {
    lines(&translate_thread(&reading.as_ref().expect("read").threads[thread]))
}

fn some(numbers: &[u32]) -> Values {
    numbers.iter().copied().map(Some).collect()
}

/// `forever @(b or c) a = b + c;` step by step.
#[test]
fn example_3_2_1() {
    let [b, c, a] = [1, 2, 3];
    let adder = Stmt::sequence(any(&[b, c]), set(a, add(v(b), v(c))));
    let reading = module(&[1, 8, 8], &[8], vec![], vec![adder]);
    assert_eq!(listing(&reading, 0), ["0 wait 0 1 0 2", "1 set 3 o6 v1 v2", "2 go 0"]);
    let simulator = Simulator::new(&reading);
    let machine = simulator.machine().expect("read");
    let mut state = state(&reading, &[Some(0), Some(0), Some(0), None]);
    assert!(machine.quiet(&state));
    simulator.instant(&mut state, &known(&[0, 2, 0])).expect("quiet");
    let seen = |state: &State| (state.time, state.places[0], values(state, 4)[3]);
    assert_eq!(seen(&state), (1, 1, None));
    simulator.choose(&mut state, 0, 0).expect("enabled");
    assert_eq!(seen(&state), (1, 2, Some(2)));
    simulator.choose(&mut state, 0, 0).expect("enabled");
    assert_eq!(seen(&state), (1, 0, Some(2)));
    assert!(machine.quiet(&state));
    assert_eq!(state.counts, [2, 0, 0, 0]);
}

/// Disjoint threads: every order ends in the same state.
#[test]
fn example_3_2_2() {
    let [b, c, a1, a2] = [1, 2, 3, 4];
    let first = Stmt::sequence(any(&[b, c]), set(a1, add(v(b), v(c))));
    let second = Stmt::sequence(any(&[b]), set(a2, add(v(b), num(8, 1))));
    let reading = module(&[1, 8, 8], &[8, 8], vec![], vec![first, second]);
    let start = state(&reading, &[Some(0), Some(0), Some(0), None, None]);
    assert_eq!(rest(&reading, &start, &[0, 2, 0]), some(&[0, 2, 0, 2, 3]));
    // The order that 003 follows.
    let simulator = Simulator::new(&reading);
    let mut state = start;
    simulator.instant(&mut state, &known(&[0, 2, 0])).expect("quiet");
    assert_eq!(state.places[..2], [1, 1]);
    simulator.choose(&mut state, 0, 0).expect("enabled");
    assert_eq!(
        (&state.places[..2], values(&state, 5)[3..].to_vec()),
        (&[2, 1][..], vec![Some(2), None])
    );
    simulator.choose(&mut state, 0, 1).expect("enabled");
    assert_eq!(
        (&state.places[..2], values(&state, 5)[3..].to_vec()),
        (&[2, 2][..], some(&[2, 3]))
    );
    assert_eq!(simulator.run(&mut state, 0, &[1, 0]).accepted, 2);
    assert_eq!(state.places[..2], [0, 0]);
}

/// The first thread reads the register that the second one writes: two outcomes.
#[test]
fn example_3_2_3() {
    let [b, a, c] = [1, 2, 3];
    let first = Stmt::sequence(any(&[b, c]), set(a, add(v(b), v(c))));
    let second = Stmt::sequence(any(&[b]), set(c, add(v(b), num(8, 1))));
    let reading = module(&[1, 8], &[8, 8], vec![], vec![first, second]);
    let start = state(&reading, &[Some(0), Some(0), None, None]);
    let unknown = vec![Some(0), Some(2), None, Some(3)];
    let sum = some(&[0, 2, 5, 3]);
    assert_eq!(rests(&reading, &start, &[0, 2]), [unknown.clone(), sum.clone()]);
    // Thread 1 of 003 first, then thread 2; and the other way round, where 003 prints the
    // two places swapped.
    let simulator = Simulator::new(&reading);
    let finish = |choices: &[u8]| {
        let mut state = start.clone();
        simulator.instant(&mut state, &known(&[0, 2])).expect("quiet");
        assert_eq!(simulator.run(&mut state, 0, choices).accepted, choices.len());
        assert!(simulator.machine().expect("read").quiet(&state));
        values(&state, 4)
    };
    assert_eq!(finish(&[0, 1, 0, 1]), unknown);
    assert_eq!(finish(&[1, 0, 0, 1]), sum);
    // Back at its wait in time, the first thread is woken again.
    assert_eq!(finish(&[0, 0, 1, 0, 0, 1]), sum);
}

/// A latch: `forever @(clk or d) if (clk) q = d;`
#[test]
fn example_3_2_4() {
    let [d, q] = [1, 2];
    let latch = Stmt::sequence(any(&[CLK, d]), Stmt::when(v(CLK), set(q, v(d))));
    let reading = module(&[1, 8], &[8], vec![], vec![latch]);
    assert_eq!(
        listing(&reading, 0),
        ["0 wait 0 0 0 1", "1 ifnot 3 v0", "2 set 2 v1", "3 go 0"]
    );
    let at = |clk, d, q| state(&reading, &some(&[clk, d, q]));
    // The clock rises; d changes while it is high; it falls; d changes while it is low.
    assert_eq!(rest(&reading, &at(0, 5, 7), &[1, 5]), some(&[1, 5, 5]));
    assert_eq!(rest(&reading, &at(1, 5, 5), &[1, 9]), some(&[1, 9, 9]));
    assert_eq!(rest(&reading, &at(1, 9, 9), &[0, 9]), some(&[0, 9, 9]));
    assert_eq!(rest(&reading, &at(0, 9, 9), &[0, 3]), some(&[0, 3, 9]));
    // Falling together with a change of d, the old value is kept.
    assert_eq!(rest(&reading, &at(1, 9, 9), &[0, 3]), some(&[0, 3, 9]));
}

/// A flip-flop: `forever @(posedge clk) q = d;`
#[test]
fn example_3_2_5() {
    let [d, q] = [1, 2];
    let reading = module(&[1, 8], &[8], vec![], vec![at_clk(vec![set(q, v(d))])]);
    assert_eq!(listing(&reading, 0), ["0 wait 1 0", "1 set 2 v1", "2 go 0"]);
    let at = |clk, d, q| state(&reading, &some(&[clk, d, q]));
    assert_eq!(rest(&reading, &at(0, 5, 7), &[1, 5]), some(&[1, 5, 5]));
    assert_eq!(rest(&reading, &at(0, 5, 7), &[1, 6]), some(&[1, 6, 6]));
    assert_eq!(rest(&reading, &at(1, 5, 7), &[1, 6]), some(&[1, 6, 7]));
    assert_eq!(rest(&reading, &at(1, 5, 7), &[0, 6]), some(&[0, 6, 7]));
}

/// Two flip-flops in series: a race, unless the first is assigned later.
#[test]
fn example_3_2_6() {
    let [d, i, q] = [1, 2, 3];
    let second = at_clk(vec![set(q, v(i))]);
    let race = vec![at_clk(vec![set(i, v(d))]), second.clone()];
    let reading = module(&[1, 8], &[8, 8], vec![], race);
    let start = state(&reading, &some(&[0, 5, 3, 1]));
    let expected = [some(&[1, 5, 5, 3]), some(&[1, 5, 5, 5])];
    assert_eq!(rests(&reading, &start, &[1, 5]), expected);
    let no_race = vec![at_clk(vec![later(i, v(d))]), second];
    let reading = module(&[1, 8], &[8, 8], vec![], no_race);
    assert_eq!(rest(&reading, &start, &[1, 5]), some(&[1, 5, 5, 3]));
}

/// A flip-flop with a built-in multiplexer. 003 prints `q =` for `q <=`, and place 3 for 2.
#[test]
fn example_3_2_7() {
    let [a, b, c, q] = [1, 2, 3, 4];
    let thread = at_clk(vec![later(q, mux(v(a), v(b), v(c)))]);
    let reading = module(&[1, 1, 8, 8], &[8], vec![], vec![thread]);
    assert_eq!(listing(&reading, 0), ["0 wait 1 0", "1 later 4 o10 v1 v2 v3", "2 go 0"]);
    let start = state(&reading, &some(&[0, 0, 5, 6, 0]));
    assert_eq!(rest(&reading, &start, &[1, 0, 5, 6]), some(&[1, 0, 5, 6, 6]));
    assert_eq!(rest(&reading, &start, &[1, 1, 5, 6]), some(&[1, 1, 5, 6, 5]));
    assert_eq!(rest(&reading, &start, &[0, 1, 5, 6]), some(&[0, 1, 5, 6, 0]));
}

/// A flip-flop with a multiplexer in a thread of its own. 003 prints `q =` for `q <=`.
#[test]
fn example_3_2_8() {
    let [a, b, c, q, d] = [1, 2, 3, 4, 5];
    let flip_flop = at_clk(vec![later(q, v(d))]);
    let choose = Stmt::if_else(v(a), set(d, v(b)), set(d, v(c)));
    let multiplexer = Stmt::sequence(any(&[a, b, c]), choose);
    let reading = module(&[1, 1, 8, 8], &[8, 8], vec![], vec![flip_flop, multiplexer]);
    assert_eq!(listing(&reading, 0), ["0 wait 1 0", "1 later 4 v5", "2 go 0"]);
    let expected =
        ["0 wait 0 1 0 2 0 3", "1 ifnot 4 v1", "2 set 5 v2", "3 go 5", "4 set 5 v3", "5 go 0"];
    assert_eq!(listing(&reading, 1), expected);
    // The multiplexer has settled on c: d is 6.
    let start = state(&reading, &some(&[0, 0, 5, 6, 1, 6]));
    // The clock alone, a alone, both: q is the old d or the new one.
    assert_eq!(rest(&reading, &start, &[1, 0, 5, 6]), some(&[1, 0, 5, 6, 6, 6]));
    assert_eq!(rest(&reading, &start, &[0, 1, 5, 6]), some(&[0, 1, 5, 6, 1, 5]));
    let both = [some(&[1, 1, 5, 6, 5, 5]), some(&[1, 1, 5, 6, 6, 5])];
    assert_eq!(rests(&reading, &start, &[1, 1, 5, 6]), both);
}

/// At the start all is x and the clock has not been seen: the first 1 is a posedge.
#[test]
fn from_the_start() {
    let [d, q] = [1, 2];
    let reading = module(&[1, 8], &[8], vec![], vec![at_clk(vec![set(q, v(d))])]);
    let simulator = Simulator::new(&reading);
    let start = simulator.start(MOST).expect("read");
    assert_eq!(rest(&reading, &start, &[1, 5]), some(&[1, 5, 5]));
    assert_eq!(rest(&reading, &start, &[0, 5]), [Some(0), Some(5), None]);
}
