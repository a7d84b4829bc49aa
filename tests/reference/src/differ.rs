//! Where two outputs of the replay program part, said so that people find it.

use crate::replay::{Record, Script};

/// The first difference between what the reference and the other program print for a
/// script; none where they agree.
pub fn difference(script: &[u8], reference: &[u8], other: &[u8]) -> Option<String> {
    if reference == other {
        return None;
    }
    let [left, right] = [reference, other].map(lines);
    let index = left.iter().zip(&right).take_while(|(a, b)| a == b).count();
    let records = Script::read(script).records;
    let mut report = format!("line {}", index + 1);
    if let Some(record) = records.get(index) {
        report += &format!(", record `{record}`");
    }
    let shown = [Record::Dump, Record::Tables];
    let before = records.iter().take(index).rfind(|record| !shown.contains(record));
    if let Some(call) = before {
        report += &format!(", after `{call}`");
    }
    for (who, lines) in [("reference", &left), ("other", &right)] {
        let line = lines.get(index).map_or("no line", |line| line);
        report += &format!("\n  {who}: {}", shortened(line));
    }
    if let (Some(left), Some(right)) = (left.get(index), right.get(index)) {
        report += &field_difference(left, right).unwrap_or_default();
    }
    Some(report)
}

fn lines(output: &[u8]) -> Vec<String> {
    output.split_inclusive(|&b| b == b'\n').map(|l| String::from_utf8_lossy(l).into()).collect()
}

fn shortened(line: &str) -> String {
    const MOST: usize = 100;
    let line = line.trim_end();
    match line.char_indices().nth(MOST) {
        Some((end, _)) => format!("{}..", &line[..end]),
        None => line.into(),
    }
}

/// The first field in which two states, two tables or two cycle runs differ.
fn field_difference(left: &str, right: &str) -> Option<String> {
    let [mut lefts, mut rights] = [left, right].map(|line| line.trim_end().split(' '));
    let first = lefts.next().filter(|first| rights.next() == Some(*first))?;
    let mut words = lefts.zip(rights).enumerate();
    let (index, (left, right)) = words.find(|(_, (left, right))| left != right)?;
    let digit = left.bytes().zip(right.bytes()).position(|(a, b)| a != b)?;
    let (name, from, length) = match (first, index) {
        ("state", 0) => field(&STATE, digit / 2)?,
        ("cycle", 1) => field(&CYCLE, digit / 2)?,
        ("nodes", 0) => (format!("node word {}", digit / 4), digit / 4 * 2, 2),
        ("nodes", _) => (format!("row word {}", digit / 4), digit / 4 * 2, 2),
        _ => return None,
    };
    let digits = 2 * from..2 * (from + length);
    let [left, right] = [left.get(digits.clone())?, right.get(digits)?];
    Some(format!("\n  {name}: {left} and {right}"))
}

/// Fields: a name, how many there are, and the bytes of each.
const STATE: [(&str, usize, usize); 7] = [
    ("value", 80, 8),
    ("pending", 32, 9),
    ("place", 8, 1),
    ("mark", 32, 1),
    ("time", 1, 8),
    ("count", 4, 8),
    ("allowance", 4, 4),
];
const CYCLE: [(&str, usize, usize); 3] =
    [("register", 32, 8), ("place", 8, 1), ("wire", 32, 8)];

/// The field that a byte lies in: its name, first byte and length.
fn field(fields: &[(&str, usize, usize)], byte: usize) -> Option<(String, usize, usize)> {
    let mut first = 0;
    for &(name, count, length) in fields {
        if byte < first + count * length {
            let index = (byte - first) / length;
            let name = if count == 1 { name.into() } else { format!("{name} {index}") };
            return Some((name, first + index * length, length));
        }
        first += count * length;
    }
    None
}
