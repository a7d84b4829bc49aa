//! The replay program: a script of calls in, a line for each record out.

use std::io::{self, Write};

use crate::compiler::Compiler;
use crate::dispatch::{Answer, dispatch};
use crate::module::Module;
use crate::pseudocode;
use crate::saved::{bring_over, write_state, write_turns};
use crate::sheet::{self, Refusal};
use crate::simulator::{Simulator, number_of};
use crate::state::State;
use crate::text::read_text;

mod record;
mod tables;

pub use record::{BUFFER, Record, Script};
pub use tables::{Cycle, Lent, NODES, ROWS, Table, UNWRITTEN, Words};

/// Runs a script of any bytes as far as it goes.
pub fn replay(script: &[u8], out: &mut impl Write) -> io::Result<()> {
    replay_by(sheet::read, script, out)
}

/// The same with another reading of the sheet.
pub fn replay_by(
    read: impl Fn(&[u8]) -> Result<Module, Refusal>,
    script: &[u8],
    out: &mut impl Write,
) -> io::Result<()> {
    let script = Script::read(script);
    if let Some(sheet) = script.sheet {
        let reading = read(sheet);
        let mut session = Session::new(&reading);
        for record in &script.records {
            writeln!(out, "{}", session.answer(record))?;
        }
    }
    if script.rest.is_some() { writeln!(out, "bad script") } else { Ok(()) }
}

/// A sheet with the state and the tables that the calls hand on.
pub struct Session<'a> {
    reading: &'a Result<Module, Refusal>,
    pub simulator: Simulator<'a>,
    pub compiler: Compiler<'a>,
    pub state: State,
    pub words: Words,
}

impl<'a> Session<'a> {
    /// Of what reading a sheet gave.
    pub fn new(reading: &'a Result<Module, Refusal>) -> Session<'a> {
        let (simulator, compiler) = (Simulator::new(reading), Compiler::new(reading));
        let (state, words) = (State::ZERO, Words::unwritten());
        Session { reading, simulator, compiler, state, words }
    }

    /// Makes the call; the line without its line feed.
    pub fn answer(&mut self, record: &Record) -> String {
        let Session { simulator, compiler, state, words, .. } = self;
        match record {
            Record::Read => {
                let refusal = self.reading.as_ref().err();
                let (number, place) = refusal.map_or((0, 0), |r| (r.number, r.place));
                format!("read {number} {place}")
            }
            Record::List => {
                format!("list {}", hex(pseudocode::printed(self.reading).as_bytes()))
            }
            Record::Start(allowances) => {
                let outcome = simulator.start(*allowances).map(|start| *state = start);
                format!("start {}", number_of(outcome))
            }
            Record::Choose(user, choice) => {
                format!("choose {}", number_of(simulator.choose(state, *user, *choice)))
            }
            Record::Run(user, choices) => {
                let run = simulator.run(state, *user, choices);
                format!("run {} {}", run.accepted, run.number)
            }
            Record::Plain(user, limit) => {
                let run = simulator.run_plain(state, *user, *limit);
                format!("plain {} {} {}", run.accepted, run.number, run.verdict.word())
            }
            Record::Instant(inputs) => {
                format!("instant {}", number_of(simulator.instant(state, inputs)))
            }
            Record::Load(loaded) => {
                state.clone_from(loaded);
                "load".into()
            }
            Record::Bring(saved, allowances) => {
                let machine = simulator.machine();
                let brought = machine
                    .and_then(|machine| bring_over(machine.module(), saved, *allowances));
                format!("bring {}", number_of(brought.map(|brought| *state = brought)))
            }
            Record::Dump => {
                let mut bytes = Vec::new();
                write_state(state, &mut bytes);
                format!("state {}", hex(&bytes))
            }
            Record::Extract(lent) => {
                let (nodes, rows) = words.lend(*lent);
                format!("extract {}", number_of(compiler.extract(nodes, rows)))
            }
            Record::Tables => words.line(),
            Record::Word { table, index, word } => {
                words.store(*table, *index, *word);
                "word".into()
            }
            Record::Cycle(cycle) => {
                let mut lane = cycle.lane();
                let (nodes, rows) = words.lend(cycle.lent);
                let outcome = compiler.cycle(nodes, rows, &mut lane, &cycle.inputs);
                format!("cycle {} {}", number_of(outcome), hex(&lane.bytes()))
            }
            Record::Text { text, lent } => {
                let mut buffer = vec![0xAA; BUFFER.into()];
                let answer = read_text(text, &mut buffer[..usize::from(*lent)]);
                format!("text {} {} {}", answer.number, answer.length, hex(&buffer))
            }
            Record::Dispatch(turns, last) => {
                let mut turns = turns.clone();
                let (number, picked) = match dispatch(&mut turns, *last) {
                    Answer::Picked(picked) => (0, picked.to_string()),
                    Answer::Nobody => (0, "none".into()),
                    Answer::Refused(number) => (number, "none".into()),
                };
                let mut bytes = Vec::new();
                write_turns(&turns, &mut bytes);
                format!("dispatch {number} {picked} {}", hex(&bytes))
            }
        }
    }
}

/// Two lower-case digits a byte.
fn hex(bytes: &[u8]) -> String {
    let digits = bytes.iter().flat_map(|byte| [byte >> 4, byte & 15]);
    digits.map(|digit| char::from(b"0123456789abcdef"[usize::from(digit)])).collect()
}
