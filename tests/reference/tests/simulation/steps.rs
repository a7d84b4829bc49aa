//! Tiny modules, their states one after the other, every choice: accepted exactly where
//! the simulation cycle allows the step, and the state is the one that it leaves.

use std::collections::{BTreeSet, VecDeque};

use reference::lively::{self, Kind, Size};
use reference::machine::{COMMIT, Machine, variables};
use reference::module::{Edge, Expr, Function, Module, Variable};
use reference::pseudocode::Instruction;
use reference::random::Random;
use reference::simulator::Simulator;
use reference::state::{MOST, State};
use reference::states;
use reference::value::{Scope, Value, evaluate};

/// How many states of one module are visited.
const MOST_STATES: usize = 1000;

#[test]
fn every_choice_in_every_state() {
    let mut random = Random::new(3);
    let mut seen = Seen::default();
    for kind in [Kind::Extractable, Kind::Events, Kind::Events] {
        for _ in 0..40 {
            let reading = Ok(lively::module(kind, Size::Tiny, &mut random));
            let simulator = Simulator::new(&reading);
            let start = simulator.start(MOST).expect("made");
            let mut known = start.clone();
            states::make_known(&mut known, reading.as_ref().expect("made"), &mut random);
            visit(&simulator, [start, known], &mut seen);
        }
    }
    // The search met all that it is about.
    assert!(seen.threads > 10_000 && seen.wires > 5000 && seen.commits > 500, "{seen:?}");
    assert!(seen.fired > 500 && seen.marked > 1000 && seen.refused > 100_000, "{seen:?}");
}

#[derive(Debug, Default)]
struct Seen {
    threads: usize,
    wires: usize,
    commits: usize,
    /// Threads that a choice fired, wires that it marked.
    fired: usize,
    marked: usize,
    refused: usize,
}

/// Goes through the states from these on, by choices and by instants with any inputs.
fn visit(simulator: &Simulator, from: [State; 2], seen: &mut Seen) {
    let machine = simulator.machine().expect("made");
    let mut known = BTreeSet::from(from.clone());
    let mut open = VecDeque::from(from);
    while let Some(state) = open.pop_front() {
        let mut next: Vec<State> = choices(machine, open.len())
            .filter_map(|choice| check(simulator, &state, choice, seen))
            .collect();
        if next.is_empty() {
            assert!(machine.quiet(&state), "no choice, and not quiet");
            next = instants(simulator, &state);
        }
        for mut state in next {
            (state.time, state.counts) = (0, [0; 4]);
            if known.len() < MOST_STATES && known.insert(state.clone()) {
                open.push_back(state);
            }
        }
    }
}

/// The items, the bytes next to them and the commit; in some states all bytes.
fn choices(machine: &Machine, turn: usize) -> impl Iterator<Item = u8> + use<> {
    let items = machine.items();
    let some = move |choice: &u8| usize::from(*choice) <= items || *choice >= 254;
    (0..=255).filter(move |choice| turn.is_multiple_of(16) || some(choice))
}

/// The states after an instant, for inputs of 0, another number and x.
fn instants(simulator: &Simulator, state: &State) -> Vec<State> {
    let module = simulator.machine().expect("made").module();
    let mut all = vec![vec![]];
    for &width in &module.widths[..module.inputs.into()] {
        let slots = [Value::known(0), Value::known(u32::from(width)), Value::x(width)];
        let longer = |inputs: Vec<Value>| slots.map(|slot| [&inputs[..], &[slot]].concat());
        all = all.into_iter().flat_map(longer).collect();
    }
    let instant = |inputs: Vec<Value>| {
        let mut after = state.clone();
        simulator.instant(&mut after, &inputs).expect("quiet");
        assert_eq!((after.time, after.counts), (state.time + 1, state.counts));
        assert_eq!(after.values[..inputs.len()], inputs);
        after
    };
    all.into_iter().map(instant).collect()
}

/// One choice: the state it leaves, where it is accepted.
fn check(simulator: &Simulator, before: &State, choice: u8, seen: &mut Seen) -> Option<State> {
    let machine = simulator.machine().expect("made");
    let mut after = before.clone();
    let outcome = simulator.choose(&mut after, 0, choice);
    assert_eq!(outcome, allowed(machine, before, choice));
    if outcome.is_err() {
        assert_eq!(&after, before);
        seen.refused += 1;
        return None;
    }
    let step = Step { machine, before, after: &after };
    let threads = machine.code().len();
    match usize::from(choice) {
        item if item < threads => {
            seen.threads += 1;
            step.by_thread(item);
        }
        item if choice != COMMIT => {
            seen.wires += 1;
            step.by_wire(item - threads);
        }
        _ => {
            seen.commits += 1;
            step.by_commit();
        }
    }
    step.consequences(choice, seen);
    Some(after)
}

/// The number that the choice gets, from the code and the marks alone.
fn allowed(machine: &Machine, state: &State, choice: u8) -> Result<(), u8> {
    let code = machine.code().iter().zip(state.places);
    let enabled_threads =
        code.map(|(code, place)| !matches!(code[usize::from(place)], Instruction::Wait(_)));
    let wires = machine.module().wires.len();
    let enabled: Vec<bool> =
        enabled_threads.chain(state.due[..wires].iter().copied()).collect();
    let pending = state.pending.iter().any(|pending| pending.held);
    match enabled.get(usize::from(choice)) {
        Some(true) => Ok(()),
        Some(false) => Err(33),
        None if choice < COMMIT => Err(22),
        None if enabled.contains(&true) => Err(34),
        None if !pending => Err(35),
        None => Ok(()),
    }
}

/// A state and the one that a choice left.
struct Step<'a> {
    machine: &'a Machine<'a>,
    before: &'a State,
    after: &'a State,
}

/// Expressions are worked out on the values before.
struct Before<'a>(&'a Module, &'a State);

impl Scope for Before<'_> {
    fn width(&self, variable: Variable) -> u8 {
        self.0.widths[usize::from(variable)]
    }

    fn value(&self, variable: Variable) -> Value {
        self.1.values[usize::from(variable)]
    }

    fn functions(&self) -> &[Function] {
        &self.0.functions
    }
}

impl Step<'_> {
    fn evaluate(&self, e: &Expr) -> Value {
        evaluate(e, &Before(self.machine.module(), self.before))
    }

    /// The values after are those before but for this variable's, where there is one.
    fn stores(&self, stored: Option<(Variable, Value)>) {
        let mut expected = self.before.values;
        if let Some((variable, value)) = stored {
            expected[usize::from(variable)] = value;
        }
        assert_eq!(self.after.values, expected);
    }

    fn by_thread(&self, thread: usize) {
        let place = usize::from(self.before.places[thread]);
        let module = self.machine.module();
        let mut pending = self.before.pending;
        let mut stored = None;
        let expected = match self.machine.code()[thread][place] {
            Instruction::Wait(_) => panic!("accepted at a wait"),
            Instruction::Set(target, e) => {
                stored = Some((target, self.evaluate(e)));
                place + 1
            }
            Instruction::Later(target, e) => {
                let slot = &mut pending[usize::from(target - module.inputs)];
                slot.held = true;
                slot.slot = self.evaluate(e);
                place + 1
            }
            Instruction::Go(goal) => goal,
            Instruction::IfNot(e, goal) => match self.evaluate(e).number {
                0 => goal,
                _ => place + 1,
            },
        };
        assert_eq!(usize::from(self.after.places[thread]), expected);
        assert_eq!(self.after.pending, pending);
        self.stores(stored);
    }

    fn by_wire(&self, wire: usize) {
        let module = self.machine.module();
        let variable = module.inputs + module.registers + wire as u8;
        self.stores(Some((variable, self.evaluate(&module.wires[wire]))));
        assert_eq!(self.after.pending, self.before.pending);
    }

    fn by_commit(&self) {
        let mut values = self.before.values;
        let mut pending = self.before.pending;
        let registers = &mut values[self.machine.module().inputs.into()..];
        for (register, pending) in registers.iter_mut().zip(&mut pending) {
            if pending.held {
                *register = pending.slot;
                pending.held = false;
            }
        }
        assert_eq!(self.after.values, values);
        assert_eq!(self.after.pending, pending);
    }

    /// What every accepted choice does: counters, waits fired, wires marked.
    fn consequences(&self, choice: u8, seen: &mut Seen) {
        let Step { machine, before, after } = self;
        let mut counts = before.counts;
        counts[0] += 1;
        assert_eq!((after.time, after.counts), (before.time, counts));
        assert_eq!(after.allowances, before.allowances);
        let threads = machine.code().len();
        for thread in (0..threads).filter(|&thread| thread != usize::from(choice)) {
            let fires = self.fires(thread);
            assert_eq!(after.places[thread], before.places[thread] + u8::from(fires));
            seen.fired += usize::from(fires);
        }
        for (wire, e) in machine.module().wires.iter().enumerate() {
            let taken = usize::from(choice) == threads + wire;
            let marked = variables(e).into_iter().any(|variable| self.changes(variable));
            assert_eq!(after.due[wire], marked || before.due[wire] && !taken);
            seen.marked += usize::from(marked);
        }
        let wires = machine.module().wires.len();
        assert_eq!(after.due[wires..], before.due[wires..]);
        assert_eq!(after.places[threads..], before.places[threads..]);
    }

    fn values(&self, variable: Variable) -> [Value; 2] {
        [self.before, self.after].map(|state| state.values[usize::from(variable)])
    }

    fn changes(&self, variable: Variable) -> bool {
        let [before, after] = self.values(variable);
        before != after
    }

    /// Whether the thread is at a wait that the change of values fires.
    fn fires(&self, thread: usize) -> bool {
        let place = usize::from(self.before.places[thread]);
        let Instruction::Wait(terms) = self.machine.code()[thread][place] else {
            return false;
        };
        terms.iter().any(|term| {
            let [before, after] = self.values(term.variable);
            self.changes(term.variable)
                && match term.edge {
                    Edge::Any => true,
                    Edge::Posedge => before == Value::known(0) || after == Value::known(1),
                    Edge::Negedge => before == Value::known(1) || after == Value::known(0),
                }
        })
    }
}
