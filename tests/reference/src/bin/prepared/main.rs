//! Holds the calls on what was prepared once against the calls on the sheet, both of the proved
//! library: numbers, what is told, states, registers, places and wires, refusals among them; and
//! traces against single calls. `prepared [SHEETS [SEED]]`. One plan serves all sheets, each
//! prepared over what the one before left.

use std::process::ExitCode;

use reference::encode::encode;
use reference::library::plans::{CLOCK_BYTES, CLOCK_WORDS, ClockPlan, PLAN_WORDS, Plan};
use reference::library::{self, SAVED};
use reference::lively::{Kind, Size};
use reference::module::Module;
use reference::random::Random;
use reference::samples::{self, to_hex};
use reference::sheet::read;
use reference::{extractable, generate, lively, mutate, refused};

mod events;
mod expressions;

const SHEETS: usize = 2_000;

pub type Outcome = Result<(), String>;

fn main() -> ExitCode {
    let mut arguments = std::env::args().skip(1).map(|n| n.parse().expect("a number"));
    let sheets = arguments.next().map_or(SHEETS, |n| n as usize);
    let mut comparison = Comparison::new(arguments.next().unwrap_or(1));
    let (mut passed, mut failed) = (0, 0);
    for turn in 0..sheets {
        let sheet = comparison.sheet(turn);
        match comparison.hold(&sheet) {
            Ok(()) => passed += 1,
            Err(difference) => {
                failed += 1;
                println!("FAIL  {difference}\n{}", to_hex(&sheet));
            }
        }
        if failed == 5 {
            break;
        }
    }
    if sheets >= SHEETS && !comparison.numbers() {
        failed += 1;
    }
    println!("{passed} passed, {failed} failed");
    if failed == 0 { ExitCode::SUCCESS } else { ExitCode::FAILURE }
}

/// The calls, and the numbers that each has.
pub const CALLS: [(&str, &[u8]); 10] = [
    ("prepare", &[0, 2, 3, 4, 5, 6, 8, 9, 10]),
    ("choose", &[0, 22, 31, 33, 34, 35, 46, 47]),
    ("run", &[0, 22, 31, 33, 34, 35, 46, 47]),
    ("run_plain", &[0, 31, 46, 47]),
    ("instant", &[0, 25, 31, 32, 36]),
    ("run_cycles", &[0, 25, 31, 32, 36, 46, 47]),
    ("trace", &[0, 23, 25, 31, 32, 36, 46, 47]),
    ("clock_prepare", &[0, 12, 13, 14, 15, 16, 17, 18, 19, 20, 21, 23, 24]),
    ("clock_cycles", &[0, 25, 31]),
    ("clock_trace", &[0, 23, 25, 31]),
];

pub struct Comparison {
    pub random: Random,
    pub plan: Plan,
    pub clock: ClockPlan,
    /// How often each call gave each number.
    met: [[u64; 256]; CALLS.len()],
}

impl Comparison {
    fn new(seed: u64) -> Comparison {
        let plan = Plan { words: vec![0xA5A5_A5A5; PLAN_WORDS] };
        let clock = ClockPlan {
            plan: plan.words.clone(),
            lent: plan.words.clone(),
            table: vec![0xA5A5_A5A5; CLOCK_WORDS],
            numbers: vec![0xA5; CLOCK_BYTES],
        };
        Comparison { random: Random::new(seed), plan, clock, met: [[0; 256]; CALLS.len()] }
    }

    /// Counts a number of a call.
    pub fn meet(&mut self, call: &str, number: u8) {
        let call = CALLS.iter().position(|(name, _)| *name == call).expect("a call's name");
        self.met[call][usize::from(number)] += 1;
    }

    /// The bench sheets first; then modules that run, that are extracted, that extraction refuses,
    /// of any form, and bytes that aren't read.
    fn sheet(&mut self, turn: usize) -> Vec<u8> {
        if let Some(bench) = samples::ALL.get(turn) {
            return bench.sheet();
        }
        let random = &mut self.random;
        let module = match turn % 8 {
            0 | 1 => lively::module(Kind::Events, Size::Usual, random),
            2 => lively::module(Kind::Extractable, Size::Usual, random),
            3 | 4 => extractable::module(random),
            5 => {
                let aim = random.pick(&refused::AIMS);
                refused::module(aim, random)
            }
            _ => generate::module(random),
        };
        let sheet = encode(&module);
        if turn % 8 == 7 { mutate::damage(&sheet, random) } else { sheet }
    }

    /// The sheet prepared, and calls on it.
    fn hold(&mut self, sheet: &[u8]) -> Outcome {
        let before = self.plan.clone();
        let (number, place) = self.plan.prepare(sheet);
        self.meet("prepare", number);
        same("prepare", library::read(sheet), (number, place))?;
        match read(sheet) {
            Ok(module) => {
                events::hold(self, sheet, &module)?;
                expressions::hold(self, sheet, Some(&module))
            }
            Err(_) => {
                if self.plan != before {
                    return Err("a refused prepare altered the plan".into());
                }
                expressions::hold(self, sheet, None)
            }
        }
    }

    /// Every call gave each of its numbers.
    fn numbers(&self) -> bool {
        let mut all = true;
        for ((name, numbers), met) in CALLS.iter().zip(&self.met) {
            let counts = numbers.iter().map(|&n| format!("{n}: {}", met[usize::from(n)]));
            println!("{name:<14}{}", counts.collect::<Vec<_>>().join(", "));
            all &= numbers.iter().all(|&n| met[usize::from(n)] > 0);
        }
        if !all {
            println!("FAIL  a number was never met");
        }
        all
    }
}

/// Both are the same.
pub fn same<T: PartialEq + std::fmt::Debug>(call: &str, expected: T, found: T) -> Outcome {
    match expected == found {
        true => Ok(()),
        false => Err(format!("{call}: {expected:?} on the sheet, {found:?} prepared")),
    }
}

/// Both left the same bytes.
pub fn same_state(call: &str, expected: &[u8; SAVED], found: &[u8; SAVED]) -> Outcome {
    match expected.iter().zip(found).position(|(a, b)| a != b) {
        None => Ok(()),
        Some(byte) => Err(format!("{call}: states differ at byte {byte}")),
    }
}

/// How many items a module has.
pub fn items(module: &Module) -> usize {
    module.threads.len() + module.wires.len()
}
