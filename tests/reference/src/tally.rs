//! Counts of the answers in the replay program's output.

use std::collections::BTreeMap;
use std::fmt::{self, Display, Formatter};

use crate::sheet::read_numbers;
use crate::simulator::Verdict;

#[derive(Default)]
pub struct Tally {
    /// By call and number.
    numbers: BTreeMap<(String, u8), u64>,
    /// By the plain run's word.
    verdicts: BTreeMap<String, u64>,
    bad_scripts: u64,
}

/// The calls whose line has a number, and where it stands in the line.
const CALLS: [(&str, usize); 9] = [
    ("read", 1),
    ("start", 1),
    ("choose", 1),
    ("run", 2),
    ("plain", 2),
    ("instant", 1),
    ("extract", 1),
    ("cycle", 1),
    ("bring", 1),
];

/// The numbers that a call can give, 0 where it is accepted.
fn numbers(call: &str) -> Vec<u8> {
    let own: &[u8] = match call {
        "choose" | "run" => &[22, 31, 33, 34, 35, 46, 47],
        "plain" => &[31, 46, 47],
        "bring" => &[31],
        "instant" => &[25, 31, 32, 36],
        "extract" => &[12, 13, 14, 15, 16, 17, 18, 19, 20, 21, 23],
        "cycle" => &[12, 13, 14, 15, 16, 17, 18, 19, 20, 21, 23, 24, 25, 31],
        _ => &[],
    };
    [0].into_iter().chain(read_numbers()).chain(own.iter().copied()).collect()
}

impl Tally {
    /// Counts the lines of one script's output.
    pub fn add(&mut self, output: &str) {
        output.lines().for_each(|line| self.add_line(line));
    }

    fn add_line(&mut self, line: &str) {
        self.bad_scripts += u64::from(line == "bad script");
        let fields: Vec<&str> = line.split(' ').collect();
        if let Some((call, field)) = CALLS.into_iter().find(|call| call.0 == fields[0]) {
            let number = fields[field].parse().expect("a number below 256");
            *self.numbers.entry((call.into(), number)).or_default() += 1;
        }
        if let ["plain", _, _, word] = fields[..] {
            *self.verdicts.entry(word.into()).or_default() += 1;
        }
    }

    fn count(&self, call: &str, number: u8) -> u64 {
        self.numbers.get(&(call.into(), number)).copied().unwrap_or(0)
    }

    fn verdict(&self, verdict: Verdict) -> u64 {
        self.verdicts.get(verdict.word()).copied().unwrap_or(0)
    }

    /// How many calls were answered.
    pub fn calls(&self) -> u64 {
        self.numbers.values().sum()
    }

    /// The answers never met.
    pub fn missing(&self) -> Vec<String> {
        let numbers = CALLS.into_iter().flat_map(|(call, _)| {
            let unmet = numbers(call).into_iter().filter(move |&n| self.count(call, n) == 0);
            unmet.map(move |number| format!("{call} {number}"))
        });
        let verdicts = Verdict::ALL.into_iter().filter(|&verdict| self.verdict(verdict) == 0);
        let verdicts = verdicts.map(|verdict| format!("plain {}", verdict.word()));
        let bad = (self.bad_scripts == 0).then(|| "bad script".into());
        numbers.chain(verdicts).chain(bad).collect()
    }
}

/// A row for each number, a column for each call; then the plain run's words.
impl Display for Tally {
    fn fmt(&self, f: &mut Formatter) -> fmt::Result {
        write!(f, "number")?;
        CALLS.into_iter().try_for_each(|(call, _)| write!(f, "{call:>9}"))?;
        writeln!(f)?;
        let functions = (44..=45).filter(|number| read_numbers().contains(number));
        for number in (0..=25).chain(31..=36).chain(functions).chain(46..=47) {
            write!(f, "{number:>6}")?;
            for (call, _) in CALLS {
                match numbers(call).contains(&number) {
                    true => write!(f, "{:>9}", self.count(call, number))?,
                    false => write!(f, "{:>9}", "")?,
                }
            }
            writeln!(f)?;
        }
        write!(f, "plain run:")?;
        for verdict in Verdict::ALL {
            write!(f, " {} {}", verdict.word(), self.verdict(verdict))?;
        }
        write!(f, "; bad scripts {}; calls {}", self.bad_scripts, self.calls())
    }
}
