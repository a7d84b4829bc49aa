//! A second simulator's traces held against the calls: event simulation by plain runs, by drawn
//! orders and by many cycles in one call, and the cycle run by expressions, one by one and many in
//! one call.

use std::collections::BTreeSet;

use crate::calls::Calls;
use crate::compiler::Lane;
use crate::extraction::text::Thread;
use crate::extraction::{NODE_WORDS, REGISTERS, ROW_WORDS};
use crate::machine::{COMMIT, Machine};
use crate::module::Module;
use crate::random::Random;
use crate::sheet;
use crate::state::{MARKS, MOST, PLACES, State, USERS};
use crate::trace::{After, Trace};
use crate::value::Value;

/// How many drawn orders a trace is run in.
pub const ORDERS: usize = 2;

/// How much was compared.
#[derive(Clone, Copy, Debug, Default, PartialEq, Eq)]
pub struct Counts {
    pub cycles: usize,
    pub choices: u64,
    /// The waits that were come to, and all there are.
    pub reached: usize,
    pub waits: usize,
}

impl Counts {
    pub fn add(&mut self, other: &Counts) {
        self.cycles += other.cycles;
        self.choices += other.choices;
        self.reached += other.reached;
        self.waits += other.waits;
    }
}

type Outcome<T = ()> = Result<T, String>;

/// The first difference, by the way of running it and the cycle.
pub fn check(calls: &impl Calls, trace: &Trace, random: &mut Random) -> Outcome<Counts> {
    let module = sheet::read_with_functions(&trace.sheet)
        .map_err(|refusal| format!("the sheet is refused: {refusal:?}"))?;
    let held = Held { calls, module: &module, machine: Machine::new(&module), trace };
    held.shape()?;
    let mut choices = held.by_events(None).map_err(|e| format!("plain run, {e}"))?;
    for _ in 0..ORDERS {
        choices += held.by_events(Some(random)).map_err(|e| format!("drawn order, {e}"))?;
    }
    held.by_rows().map_err(|e| format!("many cycles by events: {e}"))?;
    let reached = held.by_expressions().map_err(|e| format!("expressions, {e}"))?;
    let waits = Thread::all(&module).iter().map(|thread| thread.waits.len()).sum();
    Ok(Counts { cycles: trace.cycles.len(), choices, reached, waits })
}

struct Held<'a, C: Calls> {
    calls: &'a C,
    module: &'a Module,
    machine: Machine<'a>,
    trace: &'a Trace,
}

impl<C: Calls> Held<'_, C> {
    /// Each line has as many values as the sheet has inputs, wires and registers.
    fn shape(&self) -> Outcome {
        let Module { inputs, registers, wires, .. } = self.module;
        let (inputs, registers, wires) =
            (usize::from(*inputs) - 1, usize::from(*registers), wires.len());
        let whole = self.trace.cycles.iter().all(|cycle| {
            let After { low, registers: r, wires: w } = &cycle.after;
            (cycle.inputs.len(), low.len(), r.len(), w.len())
                == (inputs, wires, registers, wires)
        });
        match whole && !self.trace.cycles.is_empty() {
            true => Ok(()),
            false => Err("the trace has another number of values".into()),
        }
    }

    // ---- events

    /// The start state brought to rest.
    fn started(&self) -> Outcome<State> {
        let mut state = State::ZERO;
        refused("start", self.calls.start(&mut state, MOST))?;
        refused("run", self.calls.run_plain(&mut state, 0, u16::MAX).number)?;
        Ok(state)
    }

    /// By plain runs, or by choices drawn among those that are enabled; how many ran.
    fn by_events(&self, mut order: Option<&mut Random>) -> Outcome<u64> {
        let mut state = self.started()?;
        for (number, cycle) in self.trace.cycles.iter().enumerate() {
            let mut low = Vec::new();
            for clock in [0, 1] {
                let inputs = [&[Value::known(clock)], &cycle.inputs[..]].concat();
                refused("instant", self.calls.instant(&mut state, &inputs))?;
                self.rest(&mut state, order.as_deref_mut())?;
                if clock == 0 {
                    low = self.wires(&state);
                }
            }
            let (registers, wires) = (self.registers(&state), self.wires(&state));
            self.equal(
                number,
                [("low wires", low), ("registers", registers), ("wires", wires)],
            )?;
        }
        Ok(state.total())
    }

    fn rest(&self, state: &mut State, order: Option<&mut Random>) -> Outcome {
        let Some(random) = order else {
            return refused("run", self.calls.run_plain(state, 0, u16::MAX).number);
        };
        while !self.machine.quiet(state) {
            let items: Vec<u8> = self.machine.enabled(state).collect();
            let choice = if items.is_empty() { COMMIT } else { random.pick(&items) };
            let user = random.below(USERS) as u8;
            refused("choice", self.calls.choose(state, user, choice))?;
        }
        Ok(())
    }

    /// All cycles in one call; what they end with.
    fn by_rows(&self) -> Outcome {
        let mut state = self.started()?;
        let (done, number) = self.calls.run_cycles(&mut state, 0, &self.rows());
        refused("rows", number)?;
        let last = self.trace.cycles.len() - 1;
        match done == 2 * (last + 1) {
            true => {
                let (registers, wires) = (self.registers(&state), self.wires(&state));
                self.equal(last, [("registers", registers), ("wires", wires)])
            }
            false => Err(format!("{done} instants done")),
        }
    }

    // ---- expressions

    /// How many waits were come to.
    fn by_expressions(&self) -> Outcome<usize> {
        let (mut nodes, mut rows) = (vec![0; NODE_WORDS], vec![0; ROW_WORDS]);
        refused("extraction", self.calls.extract(&mut nodes, &mut rows))?;
        let mut lane = Lane {
            registers: [Value::NOWHERE; REGISTERS],
            places: [0; PLACES],
            wires: [Value::NOWHERE; MARKS],
        };
        let widths = &self.module.widths[self.module.inputs.into()..];
        let own = widths.iter().zip(&mut lane.registers).take(self.module.registers.into());
        own.for_each(|(&width, register)| *register = Value::x(width));
        let mut many = lane.clone();
        let inputs = self.rows();
        let mut reached = BTreeSet::new();
        for (number, row) in inputs.iter().enumerate() {
            reached.extend(lane.places.into_iter().enumerate().take(self.module.threads.len()));
            refused("cycle", self.calls.cycle(&nodes, &rows, &mut lane, row))?;
            self.equal(number, self.of_lane(&lane))?;
        }
        let (done, number) = self.calls.cycles(&nodes, &rows, &mut many, &inputs);
        refused("many cycles", number)?;
        match done == inputs.len() {
            true => self.equal(done - 1, self.of_lane(&many)).map(|()| reached.len()),
            false => Err(format!("{done} cycles done")),
        }
    }

    fn of_lane(&self, lane: &Lane) -> [(&'static str, Vec<Value>); 2] {
        let registers = lane.registers[..self.module.registers.into()].to_vec();
        let wires = lane.wires[..self.module.wires.len()].to_vec();
        [("registers", registers), ("wires", wires)]
    }

    // ---- comparing

    fn rows(&self) -> Vec<Vec<Value>> {
        self.trace.cycles.iter().map(|cycle| cycle.inputs.clone()).collect()
    }

    fn registers(&self, state: &State) -> Vec<Value> {
        let first = usize::from(self.module.inputs);
        state.values[first..first + usize::from(self.module.registers)].to_vec()
    }

    fn wires(&self, state: &State) -> Vec<Value> {
        let first = usize::from(self.module.inputs + self.module.registers);
        state.values[first..first + self.module.wires.len()].to_vec()
    }

    /// What was found in a cycle is what the trace has.
    fn equal<const N: usize>(&self, number: usize, found: [(&str, Vec<Value>); N]) -> Outcome {
        let After { low, registers, wires } = &self.trace.cycles[number].after;
        for (what, found) in found {
            let expected = match what {
                "low wires" => low,
                "registers" => registers,
                _ => wires,
            };
            let pairs = found.iter().zip(expected).enumerate();
            for (index, (found, expected)) in pairs {
                if found != expected {
                    return Err(format!(
                        "cycle {number}: {what} {index} is {found}, in the trace {expected}"
                    ));
                }
            }
        }
        Ok(())
    }
}

fn refused(call: &str, number: u8) -> Outcome {
    match number {
        0 => Ok(()),
        _ => Err(format!("{call} is refused with {number}")),
    }
}
