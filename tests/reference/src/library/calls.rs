//! The calls on one sheet, through the proved library.

use super::{Inputs, Planes, SAVED, rows_of_16};
use crate::calls::Calls;
use crate::compiler::Lane;
use crate::machine::number::USED_UP;
use crate::saved::{load, save};
use crate::simulator::{PlainRun, Verdict};
use crate::state::{State, USERS};
use crate::value::Value;

/// The proved library on a sheet.
pub struct Library<'a> {
    pub sheet: &'a [u8],
}

impl Library<'_> {
    /// Makes the call on the saved state.
    fn on_saved<T>(&self, state: &mut State, call: impl Fn(&mut [u8; SAVED]) -> T) -> T {
        let mut saved = save(state).try_into().expect("so many bytes");
        let answer = call(&mut saved);
        *state = load(&saved).expect("a saved state");
        answer
    }
}

impl Calls for Library<'_> {
    fn start(&self, state: &mut State, allowances: [u32; USERS]) -> u8 {
        self.on_saved(state, |saved| super::start(self.sheet, allowances, saved))
    }

    fn choose(&self, state: &mut State, user: u8, choice: u8) -> u8 {
        self.on_saved(state, |saved| super::choose(self.sheet, saved, user, choice))
    }

    fn run(&self, state: &mut State, user: u8, choices: &[u8]) -> (usize, u8) {
        self.on_saved(state, |saved| super::run(self.sheet, saved, user, choices))
    }

    fn run_plain(&self, state: &mut State, user: u8, limit: u16) -> PlainRun {
        let run =
            self.on_saved(state, |saved| super::run_plain(self.sheet, saved, user, limit));
        let (accepted, number, word) = run;
        let verdict = match (word, number) {
            (0, 0) => Verdict::Quiet,
            (1, 0) => Verdict::Spent,
            (2, USED_UP) => Verdict::Full,
            (3, 1..=11 | 31 | 44..=46) => Verdict::Refused,
            _ => panic!("word {word} with number {number}"),
        };
        PlainRun { accepted, number, verdict }
    }

    fn instant(&self, state: &mut State, inputs: &[Value]) -> u8 {
        let inputs = Inputs::of(inputs);
        self.on_saved(state, |saved| super::instant(self.sheet, saved, &inputs))
    }

    fn run_cycles(&self, state: &mut State, user: u8, inputs: &[Vec<Value>]) -> (usize, u8) {
        let (value, unknown) = rows_of_16(inputs);
        self.on_saved(state, |saved| {
            super::run_cycles(self.sheet, saved, user, &value, &unknown)
        })
    }

    fn extract(&self, nodes: &mut [u16], rows: &mut [u16]) -> u8 {
        super::extract(self.sheet, nodes, rows)
    }

    fn cycle(&self, nodes: &[u16], rows: &[u16], lane: &mut Lane, inputs: &[Value]) -> u8 {
        let mut planes = Planes::of(lane);
        let number = super::cycle(self.sheet, nodes, rows, &mut planes, &Inputs::of(inputs));
        *lane = planes.lane();
        number
    }

    fn cycles(
        &self,
        nodes: &[u16],
        rows: &[u16],
        lane: &mut Lane,
        inputs: &[Vec<Value>],
    ) -> (usize, u8) {
        let mut planes = Planes::of(lane);
        let (value, unknown) = rows_of_16(inputs);
        let run = super::cycles(self.sheet, nodes, rows, &mut planes, &value, &unknown);
        *lane = planes.lane();
        run
    }
}
