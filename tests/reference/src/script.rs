//! Random scripts for the replay program: modules of every kind, states good and bad,
//! calls that are accepted and calls that aren't.

use crate::encode::encode;
use crate::functions::With;
use crate::lively::{self, Kind, Size};
use crate::machine::{COMMIT, Machine};
use crate::module::Module;
use crate::random::Random;
use crate::replay::{Lent, Record, Script, Session};
use crate::saved::{COUNTS, LONG, SHORT, save, save_old};
use crate::sheet;
use crate::sheet::read_numbers;
use crate::state::State;
use crate::value::Value;
use crate::{extractable, generate, limits, mutate, refused, states, text};

mod tables;

/// The script of a seed.
pub fn script(seed: u64) -> Vec<u8> {
    let mut random = Random::new(seed);
    let sheet = sheet(&mut random);
    let reading = sheet::read(&sheet);
    let session = Session::new(&reading);
    let module = reading.as_ref().ok();
    let (fitting, records) = (State::ZERO, Vec::new());
    let mut writer = Writer { random, session, module, fitting, records };
    writer.write();
    writer.records.extend(text_records(seed));
    let script = Script::write(&sheet, &writer.records);
    match writer.random.chance(1, 8) {
        true => damage(script, &mut writer.random),
        false => script,
    }
}

// ---- texts

/// In every eighth script a module as text, a damaged one, and one that is too long, with buffers of
/// the right length and others.
fn text_records(seed: u64) -> Vec<Record> {
    if !seed.is_multiple_of(8) {
        return Vec::new();
    }
    let mut random = Random::new(seed ^ 0x7E47);
    let good = text::random::text(&generate::module_by(With::None, &mut random), &mut random);
    let damaged = text::random::damaged(&good, &mut random);
    let texts = [good.clone(), damaged, vec![b' '; text::MOST_TEXT + 1], good];
    let lent = [8_192, 8_192, 8_192, random.pick(&[0, 8_191, 8_193])];
    let pairs = texts.into_iter().zip(lent).filter(|(text, _)| text.len() <= u16::MAX.into());
    pairs.map(|(text, lent)| Record::Text { text, lent }).collect()
}

// ---- sheets

fn sheet(random: &mut Random) -> Vec<u8> {
    match random.below(28) {
        0..=3 => encode(&lively::module(Kind::Extractable, Size::Usual, random)),
        4..=10 => encode(&lively::module(Kind::Events, Size::Usual, random)),
        11 => encode(&lively::module(Kind::Events, Size::Tiny, random)),
        12 | 13 => encode(&generate::module(random)),
        14 => mutate::damage(&encode(&generate::module(random)), random),
        15 => long_sheet(random),
        16..=18 => limit_sheet(random),
        19..=22 => encode(&extractable::module(random)),
        _ => {
            let aim = random.pick(&refused::AIMS);
            encode(&refused::module(aim, random))
        }
    }
}

/// A sheet that is refused with a number drawn first.
fn limit_sheet(random: &mut Random) -> Vec<u8> {
    let number = random.pick(&read_numbers());
    let samples = limits::groups().into_iter().flat_map(|group| group.1);
    let mut sheets: Vec<Vec<u8>> = samples
        .filter(|sample| sample.number == number && sample.sheet.len() <= u16::MAX.into())
        .map(|sample| sample.sheet)
        .collect();
    sheets.swap_remove(random.below(sheets.len()))
}

/// Random bytes up to the longest sheet that a script can hold.
fn long_sheet(random: &mut Random) -> Vec<u8> {
    let length = random.pick(&[0, 1, 8191, 8192, 8193, u16::MAX.into()]);
    (0..length).map(|_| random.byte()).collect()
}

// ---- damage

/// A script with a few bytes changed, put in, taken out or cut off.
fn damage(script: Vec<u8>, random: &mut Random) -> Vec<u8> {
    match random.below(6) {
        0 | 1 => script[..random.below(script.len())].to_vec(),
        2 => [&[random.byte()], &script[1..]].concat(),
        3 => [&script[..], &[random.byte()]].concat(),
        _ => mutate::damage(&script, random),
    }
}

// ---- records

struct Writer<'a> {
    random: Random,
    /// Where the records so far lead.
    session: Session<'a>,
    module: Option<&'a Module>,
    /// The last state that fitted.
    fitting: State,
    records: Vec<Record>,
}

impl Writer<'_> {
    fn write(&mut self) {
        let start = Record::Start(states::allowances(&mut self.random));
        for record in [Record::Dump, Record::Read, Record::List, start, Record::Dump] {
            self.call(record);
        }
        if self.random.chance(1, 2) {
            self.call(Record::Extract(Lent::RIGHT));
            self.call(Record::Tables);
        }
        for _ in 0..self.random.pick(&[40, 400, 800, 1000]) {
            let record = match self.random.chance(1, 16) {
                true => self.table_record(),
                false => self.record(),
            };
            self.call(record);
        }
        self.call(Record::Dump);
    }

    /// Writes the record, makes its call, and looks at the state afterwards.
    fn call(&mut self, record: Record) {
        let looks = record != Record::Dump;
        self.session.answer(&record);
        self.records.push(record);
        if looks {
            self.records.push(Record::Dump);
        }
        if self.fits() {
            self.fitting.clone_from(&self.session.state);
        }
    }

    fn fits(&self) -> bool {
        self.session.simulator.judged(&self.session.state).is_ok()
    }

    fn quiet(&self) -> bool {
        let judged = self.session.simulator.judged(&self.session.state);
        judged.is_ok_and(|machine| machine.quiet(&self.session.state))
    }

    /// From a state that doesn't fit the way leads back, from a quiet one to an instant.
    fn record(&mut self) -> Record {
        if !self.fits() && self.random.chance(1, 3) {
            return Record::Load(Box::new(self.fitting.clone()));
        }
        if self.quiet() && self.random.chance(2, 3) {
            return Record::Instant(self.inputs());
        }
        match self.random.below(32) {
            0..=11 => {
                let user = self.user();
                Record::Choose(user, self.choice())
            }
            12..=16 => {
                let user = self.user();
                Record::Run(user, self.choices(user))
            }
            17..=21 => Record::Plain(self.user(), self.limit()),
            22..=23 => Record::Instant(self.inputs()),
            24..=27 => Record::Load(Box::new(self.state())),
            28 => Record::Start(states::allowances(&mut self.random)),
            29 => Record::Read,
            30 => self.bring(),
            _ => Record::Plain(self.user(), u16::MAX),
        }
    }

    /// Mostly a user with choices left, now and then one of the four, or none.
    fn user(&mut self) -> u8 {
        let state = &self.session.state;
        let with_room: Vec<u8> = (0..4).filter(|&user| state.has_room(user)).collect();
        let random = &mut self.random;
        match random.below(16) {
            0 => random.pick(&[4, 5, 255]),
            1..=3 => random.below(4) as u8,
            _ if with_room.is_empty() => random.below(4) as u8,
            _ => random.pick(&with_room),
        }
    }

    /// A saved state of any form, now and then with a byte changed or cut short, and allowances
    /// that mostly reach as far as user 0's count.
    fn bring(&mut self) -> Record {
        let state = self.state();
        let random = &mut self.random;
        let old = match random.below(5) {
            0 => save_old(SHORT, &state),
            1 => save_old(LONG, &state),
            2 | 3 => save_old(COUNTS, &state),
            _ => None,
        };
        let mut saved = old.unwrap_or_else(|| save(&state));
        let mut allowances = states::allowances(random);
        let count = u32::try_from(state.counts[0]).unwrap_or(u32::MAX);
        match random.below(8) {
            0 => allowances[0] = count,
            1 => allowances[0] = count.saturating_sub(1),
            2..=5 => allowances[0] = u32::MAX,
            _ => {}
        }
        match random.below(6) {
            0 => saved[0] = random.below(5) as u8,
            1 => {
                let at = random.below(saved.len());
                saved[at] = random.byte();
            }
            2 => saved.truncate(random.below(saved.len())),
            _ => {}
        }
        Record::Bring(saved, allowances)
    }

    fn limit(&mut self) -> u16 {
        match self.random.below(6) {
            0 => 0,
            1 | 2 => self.random.between(1, 4) as u16,
            3 => self.random.between(1, 40) as u16,
            4 => self.random.between(1, 1000) as u16,
            _ => self.random.pick(&[100, 255, 256, 257, 1000, 2000]),
        }
    }

    // ---- choices

    /// Mostly one that is accepted.
    fn choice(&mut self) -> u8 {
        let state = self.session.state.clone();
        match self.session.simulator.judged(&state) {
            Ok(machine) => choice(machine, &state, &mut self.random),
            Err(_) => self.random.byte(),
        }
    }

    /// Choices of a user one after the other, mostly accepted ones until the state is quiet.
    fn choices(&mut self, user: u8) -> Vec<u8> {
        let length = self.random.pick(&[0, 1, 2, 5, 10, 40, 300]);
        let mut state = self.session.state.clone();
        let Ok(machine) = self.session.simulator.judged(&state) else {
            return (0..length).map(|_| self.random.byte()).collect();
        };
        let mut choices = Vec::new();
        for _ in 0..length {
            let choice = match self.random.chance(1, 30) {
                true => choice(machine, &state, &mut self.random),
                false => enabled(machine, &state, &mut self.random),
            };
            choices.push(choice);
            let accepted = machine.choose(&mut state, user, choice).is_ok();
            if accepted && machine.quiet(&state) && self.random.chance(3, 4) {
                break;
            }
        }
        choices
    }

    // ---- inputs and states

    /// Mostly as many as the module has.
    fn inputs(&mut self) -> Vec<Value> {
        let mut inputs = self.inputs_in_number();
        let length = match self.random.below(32) {
            0 => inputs.len() + 1,
            1 => inputs.len().saturating_sub(1),
            2 => self.random.pick(&[0, 15, 16, 17, 18, 255]),
            _ => inputs.len(),
        };
        inputs.resize(length, Value::ZERO);
        inputs
    }

    /// Mostly inputs that fit. Half of them stay as they are; the clock goes to and fro.
    fn inputs_in_number(&mut self) -> Vec<Value> {
        let Some(module) = self.module else {
            return vec![Value::known(self.random.below(3) as u32); self.random.below(4)];
        };
        let random = &mut self.random;
        let careless = random.chance(1, 12);
        let present = self.session.state.values.iter().zip(&module.widths);
        let mut inputs: Vec<Value> = present
            .take(module.inputs.into())
            .map(|(slot, &width)| match random.chance(1, 2) {
                true => *slot,
                false if careless => states::value(width, random),
                false => states::fitting_value(width, random),
            })
            .collect();
        match random.below(8) {
            0 => inputs[0] = Value::x(1),
            1 => {}
            _ => inputs[0] = Value::known(u32::from(inputs[0] == Value::known(0))),
        }
        inputs
    }

    /// The last state that fitted, disturbed or not; now and then any state at all.
    fn state(&mut self) -> State {
        let mut state = self.fitting.clone();
        let random = &mut self.random;
        match random.below(16) {
            0 => state = states::noise(random),
            1..=9 => states::disturb(&mut state, self.module, random),
            10 => (0..3).for_each(|_| states::disturb(&mut state, self.module, random)),
            _ => {}
        }
        if let Some(module) = self.module {
            if random.chance(1, 4) {
                states::make_known(&mut state, module, random);
            }
            if random.chance(1, 3) {
                states::litter(&mut state, module, random);
            }
        }
        state
    }
}

/// One of the enabled items, or the commit where there is none.
fn enabled(machine: &Machine, state: &State, random: &mut Random) -> u8 {
    let items: Vec<u8> = machine.enabled(state).collect();
    if items.is_empty() { COMMIT } else { random.pick(&items) }
}

/// Mostly an enabled item, else any byte, with those next to the last item.
fn choice(machine: &Machine, state: &State, random: &mut Random) -> u8 {
    let items = machine.items();
    match random.below(16) {
        0 | 1 => COMMIT,
        2 | 3 => random.below(items) as u8,
        4 => random.byte(),
        5 => random.pick(&[items as u8, items as u8 - 1, 254]),
        _ => enabled(machine, state, random),
    }
}
