//! Holds the proved library against the reference implementation: number, place
//! and listing, sheet by sheet. A group of sheets stops at its first difference and
//! prints it; the status is 0 where no group has one.

use std::process::ExitCode;

use reference::calls::{Calls, Reference};
use reference::census::Census;
use reference::encode::encode;
use reference::library::{self, Library, SAVED, TEXT};
use reference::random::Random;
use reference::samples::{self, to_hex};
use reference::state::{MOST, State, USERS};
use reference::value::Value;
use reference::{generate, limits, mutate, pseudocode, saved, sheet, states};

const RANDOM_MODULES: usize = 10_000;
const ILL_TYPED: usize = 10_000;
const DAMAGED: usize = 5_000;
const DAMAGED_EACH: usize = 4;
const NOISE: usize = 20_000;
const STATES: usize = 20_000;
/// Counters drawn for each bench sheet.
const BY_USERS: usize = 500;
/// The most that a short counter holds.
const SHORT_END: u64 = u32::MAX as u64;
/// Bytes behind the text that the library must not reach.
const GUARD: usize = 4096;

fn main() -> ExitCode {
    let seed =
        std::env::args().nth(1).map_or(1, |seed| seed.parse().expect("a seed is a number"));
    let mut comparison = Comparison::new();
    comparison.random_modules(seed);
    comparison.bench_sheets();
    comparison.limits();
    comparison.ill_typed(seed);
    comparison.damaged(seed);
    comparison.noise(seed);
    comparison.saved(seed);
    comparison.counters(seed);
    comparison.coverage();
    println!("{} sheets", comparison.met.iter().sum::<u64>());
    println!("{} passed, {} failed", comparison.passed, comparison.failed);
    if comparison.failed == 0 { ExitCode::SUCCESS } else { ExitCode::FAILURE }
}

struct Comparison {
    passed: u32,
    failed: u32,
    /// How often each number was met, 0 for an accepted sheet.
    met: [u64; 256],
    census: Census,
    /// The text and the guard: between calls as in `unwritten`.
    buffer: Vec<u8>,
    unwritten: Vec<u8>,
}

type Outcome = Result<(), String>;

/// What one implementation says of a sheet.
#[derive(PartialEq)]
struct Answer {
    number: u8,
    place: usize,
    text: Vec<u8>,
}

impl Comparison {
    fn new() -> Comparison {
        let mut random = Random::new(0);
        let unwritten: Vec<u8> = (0..TEXT + GUARD).map(|_| random.byte()).collect();
        let buffer = unwritten.clone();
        let census = Census::default();
        Comparison { passed: 0, failed: 0, met: [0; 256], census, buffer, unwritten }
    }

    // ---- groups

    fn group(&mut self, name: &str, run: impl FnOnce(&mut Comparison) -> Outcome) {
        let before: u64 = self.met.iter().sum();
        let outcome = run(self);
        let sheets = self.met.iter().sum::<u64>() - before;
        match outcome {
            Ok(()) => {
                self.passed += 1;
                println!("ok    {name} ({sheets} sheets)");
            }
            Err(difference) => {
                self.failed += 1;
                println!("FAIL  {name}\n{difference}");
            }
        }
    }

    fn random_modules(&mut self, seed: u64) {
        let mut random = Random::new(seed);
        self.group("random modules", |comparison| {
            (0..RANDOM_MODULES).try_for_each(|_| {
                let module = generate::module(&mut random);
                comparison.census.add(&module);
                let sheet = encode(&module);
                match sheet::read(&sheet) == Ok(module) {
                    true => comparison.hold(&sheet),
                    false => Err(format!("the reference misreads {}", to_hex(&sheet))),
                }
            })
        });
    }

    fn bench_sheets(&mut self) {
        self.group("bench sheets", |comparison| {
            samples::ALL.iter().try_for_each(|bench| comparison.hold(&bench.sheet()))
        });
        for bench in samples::ALL {
            self.group(&format!("truncations of {}", bench.name), |comparison| {
                mutate::truncations(&bench.sheet())
                    .try_for_each(|sheet| comparison.hold(&sheet))
            });
        }
        for bench in [samples::FLIP_FLOP, samples::COUNTER, samples::WATCHDOG] {
            self.group(&format!("changes of {}", bench.name), |comparison| {
                mutate::changes(&bench.sheet()).try_for_each(|sheet| comparison.hold(&sheet))
            });
        }
    }

    fn limits(&mut self) {
        for (name, samples) in limits::groups() {
            self.group(name, |comparison| {
                samples.iter().try_for_each(|sample| comparison.hold(&sample.sheet))
            });
        }
    }

    fn ill_typed(&mut self, seed: u64) {
        let mut random = Random::new(seed ^ 1 << 32);
        self.group("ill-typed modules", |comparison| {
            (0..ILL_TYPED).try_for_each(|_| {
                comparison.hold(&encode(&generate::ill_typed_module(&mut random)))
            })
        });
    }

    fn damaged(&mut self, seed: u64) {
        let mut random = Random::new(seed ^ 2 << 32);
        self.group("damaged sheets", |comparison| {
            (0..DAMAGED).try_for_each(|_| {
                let sheet = encode(&generate::module(&mut random));
                (0..DAMAGED_EACH)
                    .try_for_each(|_| comparison.hold(&mutate::damage(&sheet, &mut random)))
            })
        });
    }

    fn noise(&mut self, seed: u64) {
        let mut random = Random::new(seed ^ 3 << 32);
        self.group("random bytes", |comparison| {
            (0..NOISE).try_for_each(|_| comparison.hold(&mutate::noise(&mut random)))
        });
    }

    /// Saved states of all forms, whole and damaged, brought over on sheets as the reference does.
    fn saved(&mut self, seed: u64) {
        let mut random = Random::new(seed ^ 4 << 32);
        self.group("saved states", |_| (0..STATES).try_for_each(|_| bring(&mut random)));
    }

    /// Calls on states at and next to the end of the time, with allowances that are used up after
    /// some choices, and with counts above them.
    fn counters(&mut self, seed: u64) {
        let ends = [0, SHORT_END - 1, SHORT_END, SHORT_END + 1, u64::MAX - 1, u64::MAX];
        let mut random = Random::new(seed ^ 5 << 32);
        self.group("counters", |_| {
            samples::ALL.iter().try_for_each(|bench| {
                let sheet = bench.sheet();
                (0..BY_USERS).try_for_each(|_| {
                    let time = random.pick(&ends);
                    let allowances = states::allowances(&mut random);
                    let counts = allowances.map(|allowance| {
                        let room = random.pick(&[0, 0, 1, 2, 3, 5, 9]).min(allowance);
                        u64::from(allowance - room) + u64::from(random.chance(1, 40))
                    });
                    let users = std::array::from_fn(|_| match random.chance(1, 12) {
                        true => random.pick(&[4, 255]),
                        false => random.below(USERS) as u8,
                    });
                    run_on(&sheet, &Counters { time, counts, allowances }, &users)
                })
            })
        });
    }

    /// Every form was generated and every number was met.
    fn coverage(&mut self) {
        println!("forms in the random modules\n{}", self.census);
        self.group("every form", |comparison| match comparison.census.missing() {
            missing if missing.is_empty() => Ok(()),
            missing => Err(format!("never generated: {}", missing.join(", "))),
        });
        println!("numbers met");
        let mut numbers = [0].into_iter().chain(sheet::read_numbers()).map(usize::from);
        for number in numbers.clone() {
            println!("  {number:<20}{:>10}", self.met[number]);
        }
        self.group("every number", |comparison| {
            match numbers.find(|&number| comparison.met[number] == 0) {
                None => Ok(()),
                Some(number) => Err(format!("never met: {number}")),
            }
        });
    }

    // ---- one sheet

    fn hold(&mut self, sheet: &[u8]) -> Outcome {
        let expected = by_reference(sheet);
        self.met[usize::from(expected.number)] += 1;
        let found =
            self.by_library(sheet).map_err(|fault| format!("{fault}\n{}", to_hex(sheet)))?;
        if found == expected { Ok(()) } else { Err(difference(sheet, &expected, &found)) }
    }

    fn by_library(&mut self, sheet: &[u8]) -> Result<Answer, String> {
        let (number, place) = library::read(sheet);
        let text = (&mut self.buffer[..TEXT]).try_into().expect("so many bytes");
        let (listed, length) = library::list(sheet, text);
        if listed != number {
            return Err(format!("read gives {number}, list {listed}"));
        }
        let behind = length.min(TEXT)..;
        if length > TEXT || self.buffer[behind.clone()] != self.unwritten[behind] {
            self.buffer.copy_from_slice(&self.unwritten);
            return Err(format!("the library wrote behind its listing of {length} bytes"));
        }
        let text = self.buffer[..length].to_vec();
        self.buffer[..length].copy_from_slice(&self.unwritten[..length]);
        Ok(Answer { number, place, text })
    }
}

/// What is brought over is the state that the reference loads; else the lent bytes stay.
fn bring(random: &mut Random) -> Outcome {
    let mut state = states::noise(random);
    if random.chance(1, 2) {
        state.time %= 1 << 32;
        state.counts[0] %= 1 << 32;
    }
    let form = random.between(1, 4) as u8;
    let mut old = match saved::save_old(form, &state) {
        Some(old) if form < saved::FORM => old,
        _ => saved::save(&state),
    };
    let mut allowances = states::allowances(random);
    let count = u32::try_from(state.counts[0]).unwrap_or(u32::MAX);
    match random.below(8) {
        0 => allowances[0] = count,
        1 => allowances[0] = count.saturating_sub(1),
        2..=5 => allowances[0] = u32::MAX,
        _ => {}
    }
    match random.below(8) {
        0 => old[0] = random.below(5) as u8,
        1 => old.truncate(random.below(old.len())),
        2 => old.push(0),
        3 => {
            let at = random.below(old.len());
            old[at] = random.byte();
        }
        _ => {}
    }
    let mut sheet = match random.chance(1, 4) {
        true => encode(&generate::module(random)),
        false => samples::ALL[random.below(samples::ALL.len())].sheet(),
    };
    if random.chance(1, 16) {
        sheet = mutate::damage(&sheet, random);
    }
    let mut lent = [0xA5; SAVED];
    let number = library::bring_over(&sheet, &old, allowances, &mut lent);
    let brought = sheet::read(&sheet)
        .map_err(|refusal| refusal.number)
        .and_then(|module| saved::bring_over(&module, &old, allowances));
    let expected = match brought {
        Ok(state) => (0, saved::save(&state)),
        Err(number) => (number, vec![0xA5; SAVED]),
    };
    match (number, lent.to_vec()) == expected {
        true => Ok(()),
        false => {
            let given = format!("{} {allowances:?} {}", to_hex(&sheet), to_hex(&old));
            Err(format!("bring over gives {number} for {given}"))
        }
    }
}

/// Those of a state.
#[derive(Debug)]
struct Counters {
    time: u64,
    counts: [u64; USERS],
    allowances: [u32; USERS],
}

/// The start run to rest, then instants, choices and runs of these users, with these counters.
fn run_on(sheet: &[u8], counters: &Counters, users: &[u8; 7]) -> Outcome {
    let reading = sheet::read(sheet);
    let inputs = reading.as_ref().map_or(0, |module| usize::from(module.inputs));
    let answers = |calls: &dyn Calls| {
        let mut state = State::ZERO;
        let mut numbers = vec![calls.start(&mut state, MOST)];
        numbers.push(calls.run_plain(&mut state, 0, u16::MAX).number);
        state.time = counters.time;
        (state.counts, state.allowances) = (counters.counts, counters.allowances);
        for clock in [0, 1] {
            let of = |call: usize| users[3 * clock as usize + call];
            let mut given = vec![Value::known(1); inputs];
            given[0] = Value::known(clock);
            numbers.push(calls.instant(&mut state, &given));
            numbers.push(calls.choose(&mut state, of(0), 0));
            numbers.push(calls.run(&mut state, of(1), &[0, 0]).1);
            numbers.push(calls.run_plain(&mut state, of(2), u16::MAX).number);
        }
        let rows = vec![vec![Value::known(1); inputs - 1]; 2];
        numbers.push(calls.run_cycles(&mut state, users[6], &rows).1);
        (numbers, state)
    };
    let expected = answers(&Reference::new(&reading));
    let found = answers(&Library { sheet });
    match found == expected {
        true => Ok(()),
        false => Err(format!("{counters:?} {users:?}: {:?} and {:?}", expected.0, found.0)),
    }
}

fn by_reference(bytes: &[u8]) -> Answer {
    match sheet::read(bytes) {
        Ok(module) => {
            Answer { number: 0, place: 0, text: pseudocode::listing(&module).into_bytes() }
        }
        Err(refusal) => {
            Answer { number: refusal.number, place: refusal.place, text: Vec::new() }
        }
    }
}

/// The sheet, both answers and the first line in which the listings differ.
fn difference(sheet: &[u8], expected: &Answer, found: &Answer) -> String {
    let lines = |answer: &Answer| -> Vec<String> {
        answer.text.split(|&b| b == b'\n').map(|l| String::from_utf8_lossy(l).into()).collect()
    };
    let (left, right) = (lines(expected), lines(found));
    let first = left.iter().zip(&right).take_while(|(a, b)| a == b).count();
    let mut report = format!("sheet of {} bytes: {}\n", sheet.len(), to_hex(sheet));
    for (who, answer, lines) in [("reference", expected, left), ("library", found, right)] {
        let Answer { number, place, text } = answer;
        let line = lines.get(first).map_or("none", |line| line);
        report += &format!("{who}: number {number}, place {place}, ");
        report += &format!("{} bytes of listing, line {first}: {line}\n", text.len());
    }
    report
}
