//! Stored traces of a second simulator: what a module was handed from its start on, where all is x, and
//! what it gave, cycle by cycle.
//!
//! As text: `module NAME`, `sheet` with the sheet's bytes, then a line a cycle: the inputs from 1 up,
//! the wires with the clock low, the registers and the wires after the clock's rise, with `|` between
//! these four. A value is its number in hexadecimal, and behind a `?` the marks of its unknown bits
//! where it has any; lines that start with `#` say what the file is.

use std::fmt::{self, Display, Formatter};

use crate::value::Value;

#[derive(Clone, Debug, PartialEq, Eq)]
pub struct Trace {
    pub name: String,
    pub sheet: Vec<u8>,
    pub cycles: Vec<Cycle>,
}

#[derive(Clone, Debug, PartialEq, Eq)]
pub struct Cycle {
    /// From input 1 up.
    pub inputs: Vec<Value>,
    pub after: After,
}

/// What a cycle came to.
#[derive(Clone, Debug, PartialEq, Eq)]
pub struct After {
    /// The wires with the clock low and the cycle's inputs.
    pub low: Vec<Value>,
    /// The registers after the rise.
    pub registers: Vec<Value>,
    /// The wires after the rise.
    pub wires: Vec<Value>,
}

// ---- writing

/// Values with spaces between them.
struct Values<'a>(&'a [Value]);

impl Display for Values<'_> {
    fn fmt(&self, f: &mut Formatter) -> fmt::Result {
        for (index, Value { number, unknown }) in self.0.iter().enumerate() {
            let space = if index == 0 { "" } else { " " };
            match unknown {
                0 => write!(f, "{space}{number:x}")?,
                _ => write!(f, "{space}{number:x}?{unknown:x}")?,
            }
        }
        Ok(())
    }
}

impl Display for Cycle {
    fn fmt(&self, f: &mut Formatter) -> fmt::Result {
        let After { low, registers, wires } = &self.after;
        let [inputs, low] = [&self.inputs, low].map(|part| Values(part));
        write!(f, "{inputs}|{low}|{}|{}", Values(registers), Values(wires))
    }
}

impl Display for Trace {
    fn fmt(&self, f: &mut Formatter) -> fmt::Result {
        writeln!(f, "module {}", self.name)?;
        write!(f, "sheet ")?;
        self.sheet.iter().try_for_each(|byte| write!(f, "{byte:02x}"))?;
        writeln!(f)?;
        self.cycles.iter().try_for_each(|cycle| writeln!(f, "{cycle}"))
    }
}

// ---- reading

/// The traces in a text; or the line that isn't one of a trace, from 1.
pub fn parse(text: &str) -> Result<Vec<Trace>, usize> {
    let mut traces: Vec<Trace> = Vec::new();
    for (index, line) in text.lines().enumerate() {
        parse_line(line, &mut traces).ok_or(index + 1)?;
    }
    Ok(traces)
}

fn parse_line(line: &str, traces: &mut Vec<Trace>) -> Option<()> {
    if line.starts_with('#') {
        return Some(());
    }
    if let Some(name) = line.strip_prefix("module ") {
        traces.push(Trace { name: name.into(), sheet: Vec::new(), cycles: Vec::new() });
        return Some(());
    }
    let trace = traces.last_mut()?;
    if let Some(digits) = line.strip_prefix("sheet ") {
        trace.sheet = bytes(digits)?;
    } else {
        trace.cycles.push(cycle(line)?);
    }
    Some(())
}

fn cycle(line: &str) -> Option<Cycle> {
    let parts: Option<Vec<Vec<Value>>> = line.split('|').map(values).collect();
    let [inputs, low, registers, wires] = parts?.try_into().ok()?;
    Some(Cycle { inputs, after: After { low, registers, wires } })
}

/// Values with spaces between them, none in no text.
fn values(text: &str) -> Option<Vec<Value>> {
    let hex = |digits: &str| u32::from_str_radix(digits, 16).ok();
    let value = |word: &str| match word.split_once('?') {
        Some((number, unknown)) => Some(Value { number: hex(number)?, unknown: hex(unknown)? }),
        None => hex(word).map(Value::known),
    };
    text.split_whitespace().map(value).collect()
}

fn bytes(digits: &str) -> Option<Vec<u8>> {
    let pairs = digits.as_bytes().chunks(2);
    let byte = |pair| u8::from_str_radix(std::str::from_utf8(pair).ok()?, 16).ok();
    pairs.map(byte).collect()
}
