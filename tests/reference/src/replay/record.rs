//! The bytes of a script.

use std::fmt::{self, Display, Formatter};

use super::tables::{Cycle, Lent, Table, read_inputs, write_inputs};
use crate::dispatch;
use crate::saved::{Bytes, FORM, write_allowances, write_state, write_turns};
use crate::state::{State, USERS};
use crate::value::Value;

/// One call.
#[derive(Clone, Debug, PartialEq, Eq)]
pub enum Record {
    Read,
    List,
    Start([u32; USERS]),
    /// A user and a choice.
    Choose(u8, u8),
    /// A user and at most 65,535 choices.
    Run(u8, Vec<u8>),
    /// A user and how many choices at most.
    Plain(u8, u16),
    /// At most 255 values.
    Instant(Vec<Value>),
    Load(Box<State>),
    /// At most 65,535 bytes of a saved state, and the allowances for one count.
    Bring(Vec<u8>, [u32; USERS]),
    Dump,
    Extract(Lent),
    Tables,
    Word {
        table: Table,
        index: u16,
        word: u16,
    },
    Cycle(Box<Cycle>),
    /// A Verilog text, and how many bytes are lent.
    Text {
        text: Vec<u8>,
        lent: u16,
    },
    /// At most 16 turn records, and the number served last.
    Dispatch(Vec<dispatch::Record>, u8),
}

/// The turn records that a script can hold.
const MOST_TURNS: u8 = 16;

/// The bytes of the buffer that a text's sheet is written into: one more than are right.
pub const BUFFER: u16 = 8_193;

/// A script as far as it can be read.
pub struct Script<'a> {
    /// None where the head is bad.
    pub sheet: Option<&'a [u8]>,
    pub records: Vec<Record>,
    /// The bytes from the bad head or record on.
    pub rest: Option<&'a [u8]>,
}

impl<'a> Script<'a> {
    pub fn read(script: &'a [u8]) -> Script<'a> {
        let mut bytes = Bytes::new(script);
        let Some(sheet) = read_head(&mut bytes) else {
            let (records, rest) = (Vec::new(), Some(script));
            return Script { sheet: None, records, rest };
        };
        let mut records = Vec::new();
        let mut rest = None;
        while !bytes.is_empty() {
            let from_here = bytes.rest();
            let Some(record) = Record::read(&mut bytes) else {
                rest = Some(from_here);
                break;
            };
            records.push(record);
        }
        Script { sheet: Some(sheet), records, rest }
    }

    pub fn write(sheet: &[u8], records: &[Record]) -> Vec<u8> {
        let mut script = vec![FORM];
        let length = u16::try_from(sheet.len()).expect("at most 65,535 bytes");
        script.extend(length.to_le_bytes());
        script.extend(sheet);
        records.iter().for_each(|record| record.write(&mut script));
        script
    }
}

/// The sheet, behind the form and the sheet's length.
fn read_head<'a>(bytes: &mut Bytes<'a>) -> Option<&'a [u8]> {
    let form = bytes.byte()?;
    let length = bytes.word()?;
    let sheet = bytes.take(length.into())?;
    (form == FORM).then_some(sheet)
}

impl Record {
    /// None where the letter is unknown, a flag neither 0 nor 1, or the record cut short.
    fn read(bytes: &mut Bytes) -> Option<Record> {
        Some(match bytes.byte()? {
            b'N' => Record::Read,
            b'Q' => Record::List,
            b'S' => Record::Start(bytes.allowances()?),
            b'C' => Record::Choose(bytes.byte()?, bytes.byte()?),
            b'R' => {
                let (user, count) = (bytes.byte()?, bytes.word()?);
                Record::Run(user, bytes.take(count.into())?.to_vec())
            }
            b'P' => Record::Plain(bytes.byte()?, bytes.word()?),
            b'I' => Record::Instant(read_inputs(bytes)?),
            b'L' => Record::Load(Box::new(bytes.state()?)),
            b'M' => {
                let length = bytes.word()?;
                let saved = bytes.take(length.into())?.to_vec();
                Record::Bring(saved, bytes.allowances()?)
            }
            b'D' => Record::Dump,
            b'X' => Record::Extract(Lent::read(bytes)?),
            b'T' => Record::Tables,
            b'W' => {
                let table = if bytes.flag()? { Table::Rows } else { Table::Nodes };
                Record::Word { table, index: bytes.word()?, word: bytes.word()? }
            }
            b'K' => Record::Cycle(Box::new(Cycle::read(bytes)?)),
            b'V' => {
                let length = bytes.word()?;
                let text = bytes.take(length.into())?.to_vec();
                let lent = bytes.word().filter(|&lent| lent <= BUFFER)?;
                Record::Text { text, lent }
            }
            b'B' => {
                let count = bytes.byte().filter(|&count| count <= MOST_TURNS)?;
                let turns: Option<Vec<_>> = (0..count).map(|_| bytes.turns()).collect();
                Record::Dispatch(turns?, bytes.byte()?)
            }
            _ => return None,
        })
    }

    fn write(&self, script: &mut Vec<u8>) {
        match self {
            Record::Read => script.push(b'N'),
            Record::List => script.push(b'Q'),
            Record::Start(allowances) => {
                script.push(b'S');
                write_allowances(allowances, script);
            }
            Record::Choose(user, choice) => script.extend([b'C', *user, *choice]),
            Record::Run(user, choices) => {
                let count = u16::try_from(choices.len()).expect("at most 65,535 choices");
                script.extend([b'R', *user]);
                script.extend(count.to_le_bytes());
                script.extend(choices);
            }
            Record::Plain(user, limit) => {
                script.extend([b'P', *user]);
                script.extend(limit.to_le_bytes());
            }
            Record::Instant(inputs) => {
                script.push(b'I');
                write_inputs(inputs, script);
            }
            Record::Load(state) => {
                script.push(b'L');
                write_state(state, script);
            }
            Record::Bring(saved, allowances) => {
                let length = u16::try_from(saved.len()).expect("at most 65,535 bytes");
                script.push(b'M');
                script.extend(length.to_le_bytes());
                script.extend(saved);
                write_allowances(allowances, script);
            }
            Record::Dump => script.push(b'D'),
            Record::Extract(lent) => {
                script.push(b'X');
                lent.write(script);
            }
            Record::Tables => script.push(b'T'),
            Record::Word { table, index, word } => {
                script.extend([b'W', u8::from(*table == Table::Rows)]);
                script.extend(index.to_le_bytes());
                script.extend(word.to_le_bytes());
            }
            Record::Cycle(cycle) => {
                script.push(b'K');
                cycle.write(script);
            }
            Record::Text { text, lent } => {
                let length = u16::try_from(text.len()).expect("at most 65,535 bytes");
                script.push(b'V');
                script.extend(length.to_le_bytes());
                script.extend(text);
                script.extend(lent.to_le_bytes());
            }
            Record::Dispatch(turns, last) => {
                script.extend([b'B', u8::try_from(turns.len()).expect("at most 16 records")]);
                write_turns(turns, script);
                script.push(*last);
            }
        }
    }
}

/// The record as people read it.
impl Display for Record {
    fn fmt(&self, f: &mut Formatter) -> fmt::Result {
        match self {
            Record::Read => write!(f, "read"),
            Record::List => write!(f, "list"),
            Record::Start(allowances) => write!(f, "start {allowances:?}"),
            Record::Choose(user, choice) => write!(f, "user {user} chooses {choice}"),
            Record::Run(user, choices) => write!(f, "user {user} runs {choices:?}"),
            Record::Plain(user, limit) => {
                write!(f, "plain run of at most {limit} by user {user}")
            }
            Record::Instant(inputs) => {
                write!(f, "instant")?;
                write_values(f, inputs)
            }
            Record::Load(_) => write!(f, "load"),
            Record::Bring(saved, allowances) => {
                write!(f, "bring {} bytes over with {allowances:?}", saved.len())
            }
            Record::Dump => write!(f, "state"),
            Record::Extract(Lent { nodes, rows }) => write!(f, "extract {nodes} {rows}"),
            Record::Tables => write!(f, "tables"),
            Record::Word { table, index, word } => write!(f, "word {table:?} {index} {word}"),
            Record::Cycle(cycle) => {
                write!(f, "cycle {} {}", cycle.lent.nodes, cycle.lent.rows)?;
                write_values(f, &cycle.inputs)
            }
            Record::Text { text, lent } => {
                write!(f, "text {lent} {}", String::from_utf8_lossy(text))
            }
            Record::Dispatch(turns, last) => write!(f, "dispatch {turns:?} after {last}"),
        }
    }
}

fn write_values(f: &mut Formatter, slots: &[Value]) -> fmt::Result {
    slots.iter().try_for_each(|value| write!(f, " {value}"))
}
