//! Calls on a plan of the event simulator.

use reference::lanes;
use reference::library::plans::{Rows, TRACE_ROW};
use reference::library::{self, Inputs, SAVED, rows_of_16};
use reference::module::Module;
use reference::random::Random;
use reference::saved::{load, save};
use reference::state::{State, VALUES};
use reference::states;
use reference::value::Value;

use crate::{Comparison, Outcome, items, same, same_state};

const CALLS: usize = 24;
/// Where a saved state has the time.
const TIME: usize = 969;
const UNWRITTEN: u64 = 0xA5A5_A5A5_A5A5_A5A5;

type Saved = [u8; SAVED];

pub fn hold(comparison: &mut Comparison, sheet: &[u8], module: &Module) -> Outcome {
    let allowances = match comparison.random.chance(1, 2) {
        true => [u32::MAX; 4],
        false => states::allowances(&mut comparison.random),
    };
    let (mut state, mut found) = ([0xA5; SAVED], [0x5A; SAVED]);
    same("start", library::start(sheet, allowances, &mut state), 0)?;
    comparison.plan.start(allowances, &mut found);
    same_state("start", &state, &found)?;
    let mut turn = Turn { comparison, sheet, module };
    for _ in 0..CALLS {
        let handed = turn.handed(&state);
        let left = turn.call(&handed)?;
        if handed == state {
            state = left;
        }
    }
    Ok(())
}

struct Turn<'a> {
    comparison: &'a mut Comparison,
    sheet: &'a [u8],
    module: &'a Module,
}

impl Turn<'_> {
    fn random(&mut self) -> &mut Random {
        &mut self.comparison.random
    }

    /// The state as it stands, disturbed, or no saved state.
    fn handed(&mut self, state: &Saved) -> Saved {
        let module = self.module;
        let random = self.random();
        let mut handed = *state;
        match random.below(16) {
            0 => handed[0] = random.byte(),
            1 => handed[random.pick(&[641, 650, 937, 968])] = random.byte(),
            6 => handed[TIME..TIME + 8].fill(u8::MAX),
            2..=5 => {
                let mut disturbed = load(state).expect("a saved state");
                states::disturb(&mut disturbed, Some(module), random);
                handed = save(&disturbed).try_into().expect("so many bytes");
            }
            _ => {}
        }
        handed
    }

    /// A call by both on these bytes; what it leaves.
    fn call(&mut self, handed: &Saved) -> Result<Saved, String> {
        let user = match self.random().chance(1, 16) {
            true => self.random().pick(&[4, 5, 255]),
            false => self.random().below(4) as u8,
        };
        let (mut expected, mut found) = (*handed, *handed);
        let name = match self.random().below(12) {
            0 => self.choose(user, &mut expected, &mut found)?,
            1 | 2 => self.run(user, &mut expected, &mut found)?,
            3..=5 => self.run_plain(user, &mut expected, &mut found)?,
            6 | 7 => self.instant(&mut expected, &mut found)?,
            8 | 9 => self.run_cycles(user, &mut expected, &mut found)?,
            _ => self.trace(user, &mut expected, &mut found)?,
        };
        same_state(name, &expected, &found).map(|()| expected)
    }

    fn choice(&mut self) -> u8 {
        let count = items(self.module);
        match self.random().below(8) {
            0 => 255,
            1 => self.random().byte(),
            _ => self.random().below(count) as u8,
        }
    }

    fn choose(&mut self, user: u8, expected: &mut Saved, found: &mut Saved) -> Named {
        let choice = self.choice();
        let number = library::choose(self.sheet, expected, user, choice);
        self.comparison.meet("choose", number);
        same("choose", number, self.comparison.plan.choose(found, user, choice))?;
        Ok("choose")
    }

    fn run(&mut self, user: u8, expected: &mut Saved, found: &mut Saved) -> Named {
        let count = self.random().below(6);
        let choices: Vec<u8> = (0..count).map(|_| self.choice()).collect();
        let run = library::run(self.sheet, expected, user, &choices);
        self.comparison.meet("run", run.1);
        same("run", run, self.comparison.plan.run(found, user, &choices))?;
        Ok("run")
    }

    fn run_plain(&mut self, user: u8, expected: &mut Saved, found: &mut Saved) -> Named {
        let limit = self.random().pick(&[0, 1, 3, 500, 500, u16::MAX]);
        let run = library::run_plain(self.sheet, expected, user, limit);
        self.comparison.meet("run_plain", run.1);
        same("run_plain", run, self.comparison.plan.run_plain(found, user, limit))?;
        Ok("run_plain")
    }

    fn instant(&mut self, expected: &mut Saved, found: &mut Saved) -> Named {
        let module = self.module;
        let clock = Value::known(self.random().below(2) as u32);
        let rest = match self.random().chance(1, 6) {
            true => lanes::bad_inputs(module, self.random()),
            false => lanes::inputs(module, self.random()),
        };
        let all: Vec<Value> = [clock].into_iter().chain(rest).take(255).collect();
        let inputs = Inputs::of(&all);
        let number = library::instant(self.sheet, expected, &inputs);
        self.comparison.meet("instant", number);
        same("instant", number, self.comparison.plan.instant(found, &inputs))?;
        Ok("instant")
    }

    /// Rows of inputs, now and then not whole.
    fn rows(&mut self) -> Rows {
        let module = self.module;
        let (mut value, mut unknown) = rows_of_16(&lanes::some_inputs(module, self.random()));
        match self.random().below(24) {
            0 => value.push(0),
            1 => unknown.push(0),
            2 => {
                value.push(0);
                unknown.push(0);
            }
            _ => {}
        }
        (value, unknown)
    }

    fn run_cycles(&mut self, user: u8, expected: &mut Saved, found: &mut Saved) -> Named {
        let rows = self.rows();
        let run = library::run_cycles(self.sheet, expected, user, &rows.0, &rows.1);
        self.comparison.meet("run_cycles", run.1);
        let (phases, _, number) = self.comparison.plan.run_cycles(found, user, &rows);
        same("run_cycles", run, (phases, number))?;
        Ok("run_cycles")
    }

    fn trace(&mut self, user: u8, expected: &mut Saved, found: &mut Saved) -> Named {
        let rows = self.rows();
        let needed = 2 * TRACE_ROW * (rows.0.len() / 16);
        let words = match self.random().below(10) {
            0 => needed.saturating_sub(1),
            1 => needed / 2,
            2 => needed + 100,
            _ => needed,
        };
        let (mut trace, mut found_trace) = (vec![UNWRITTEN; words], vec![UNWRITTEN; words]);
        let run = self.traced(user, &rows, expected, &mut trace);
        self.comparison.meet("trace", run.2);
        let plan = &self.comparison.plan;
        same("trace", run, plan.trace(found, user, &rows, &mut found_trace))?;
        match trace.iter().zip(&found_trace).position(|(a, b)| a != b) {
            None => Ok("trace"),
            Some(at) => Err(format!("trace: word {at}: {} and {}", trace[at], found_trace[at])),
        }
    }

    /// A trace by the single calls on the sheet: how many instants were done, whether a run was
    /// stopped, and the number.
    fn traced(
        &self,
        user: u8,
        (value, unknown): &Rows,
        state: &mut Saved,
        trace: &mut [u64],
    ) -> (usize, bool, u8) {
        let instants = 2 * (value.len() / 16);
        if trace.len() / TRACE_ROW < instants {
            return (0, false, 23);
        }
        let (_, number, _) = library::run_plain(self.sheet, &mut state.clone(), user, 0);
        if number != 0 {
            return (0, false, number);
        }
        if value.len() % 16 != 0 || value.len() != unknown.len() {
            return (0, false, 25);
        }
        for p in 0..instants {
            let row = p / 2 * 16..p / 2 * 16 + 16;
            let mut inputs = Inputs {
                count: self.module.inputs,
                value: value[row.clone()].try_into().expect("16"),
                unknown: unknown[row].try_into().expect("16"),
            };
            (inputs.value[0], inputs.unknown[0]) = (p as u32 % 2, 0);
            let number = library::instant(self.sheet, state, &inputs);
            if number != 0 {
                return (p, false, number);
            }
            let (_, number, _) = library::run_plain(self.sheet, state, user, u16::MAX);
            if number != 0 {
                return (p, true, number);
            }
            put_row(&load(state).expect("a saved state"), &mut trace[TRACE_ROW * p..]);
        }
        (instants, false, 0)
    }
}

type Named = Result<&'static str, String>;

/// The words of a state's variables, and its places.
fn put_row(state: &State, row: &mut [u64]) {
    for (word, value) in row.iter_mut().zip(&state.values) {
        *word = u64::from(value.number) | u64::from(value.unknown) << 32;
    }
    for (word, &place) in row[VALUES..].iter_mut().zip(&state.places) {
        *word = place.into();
    }
}
