//! Every operator on all values of three bits against IEEE 1364's tables, written out here bit by bit,
//! in digits 0, 1 and x: as the operators give them, and as calls do.

use reference::module::Operator;
use reference::operators::{VALUES, by_conditions, by_rows, result, rows, values};
use reference::replay::replay;
use reference::value::{Value, apply};

/// Digits of a value, the highest first.
type Digits = Vec<char>;

/// Rows for 0, 1 and x of the first operand, columns for those of the second.
type Table = [[char; 3]; 3];

const AND: Table = [
    //0    1    x
    ['0', '0', '0'], // 0
    ['0', '1', 'x'], // 1
    ['0', 'x', 'x'], // x
];

const OR: Table = [
    //0    1    x
    ['0', '1', 'x'], // 0
    ['1', '1', '1'], // 1
    ['x', '1', 'x'], // x
];

const XOR: Table = [
    //0    1    x
    ['0', '1', 'x'], // 0
    ['1', '0', 'x'], // 1
    ['x', 'x', 'x'], // x
];

/// Of ?: on an ambiguous condition.
const MERGED: Table = [
    //0    1    x
    ['0', 'x', 'x'], // 0
    ['x', '1', 'x'], // 1
    ['x', 'x', 'x'], // x
];

/// Of one bit.
const INVERTED: [char; 3] = ['1', '0', 'x'];

fn index(digit: char) -> usize {
    "01x".find(digit).expect("0, 1 or x")
}

fn by_table(table: &Table, a: &Digits, b: &Digits) -> Digits {
    a.iter().zip(b).map(|(&a, &b)| table[index(a)][index(b)]).collect()
}

// ---- values and their digits

fn digits(value: Value, width: u8) -> Digits {
    assert!(value.fits(width), "{value}");
    let digit = |bit: u8| match (value.number >> bit & 1, value.unknown >> bit & 1) {
        (0, 0) => '0',
        (1, 0) => '1',
        _ => 'x',
    };
    (0..width).rev().map(digit).collect()
}

/// The numbers that a value can be.
fn numbers(a: &Digits) -> Vec<u32> {
    let mut numbers = vec![0];
    for digit in a {
        let bits: &[u32] = match digit {
            '0' => &[0],
            '1' => &[1],
            _ => &[0, 1],
        };
        numbers =
            numbers.iter().flat_map(|n| bits.iter().map(move |bit| 2 * n + bit)).collect();
    }
    numbers
}

/// 1 or 0 where all that may be is so, else x.
fn surely(may_be: impl Iterator<Item = bool>) -> Digits {
    let may_be: Vec<bool> = may_be.collect();
    vec![match (may_be.contains(&true), may_be.contains(&false)) {
        (true, false) => '1',
        (false, true) => '0',
        _ => 'x',
    }]
}

/// What a number of three bits is; all x where an operand isn't known.
fn figure(a: &Digits, b: &Digits, operation: fn(u32, u32) -> u32) -> Digits {
    if a.contains(&'x') || b.contains(&'x') {
        return vec!['x'; 3];
    }
    let number = operation(numbers(a)[0], numbers(b)[0]) % 8;
    digits(Value::known(number), 3)
}

/// By the standard: bit by bit; all x on any x for + and -, one x for <; == x where it is ambiguous; a
/// condition that may be and may not be 0 is ambiguous.
fn expected(operator: Operator, a: &Digits, b: &Digits, condition: &Digits) -> Digits {
    let pairs =
        || numbers(a).into_iter().flat_map(|a| numbers(b).into_iter().map(move |b| (a, b)));
    let holds = surely(numbers(condition).into_iter().map(|n| n != 0));
    match operator {
        Operator::Invert => a.iter().map(|&digit| INVERTED[index(digit)]).collect(),
        Operator::Not => surely(numbers(a).into_iter().map(|n| n == 0)),
        Operator::And => by_table(&AND, a, b),
        Operator::Or => by_table(&OR, a, b),
        Operator::Xor => by_table(&XOR, a, b),
        Operator::Add => figure(a, b, |a, b| a + b),
        Operator::Subtract => figure(a, b, |a, b| a + 8 - b),
        Operator::Equal => surely(pairs().map(|(a, b)| a == b)),
        Operator::Less if a.contains(&'x') || b.contains(&'x') => vec!['x'],
        Operator::Less => surely(pairs().map(|(a, b)| a < b)),
        Operator::Conditional => match holds[0] {
            '1' => a.clone(),
            '0' => b.clone(),
            _ => by_table(&MERGED, a, b),
        },
    }
}

// ---- the operators

#[test]
fn all_values_are_there() {
    let mut all: Vec<String> =
        values().into_iter().map(|value| digits(value, 3).iter().collect()).collect();
    assert_eq!((&all[0][..], &all[5][..], &all[26][..]), ("000", "01x", "xxx"));
    all.sort();
    all.dedup();
    assert_eq!(all.len(), VALUES);
}

#[test]
fn operators_are_as_in_the_tables() {
    for (a, b) in pairs() {
        for operator in Operator::ALL {
            for c in values() {
                let operands: &[Value] = match operator {
                    Operator::Conditional => &[c, a, b],
                    Operator::Invert | Operator::Not => &[a],
                    _ => &[a, b],
                };
                // The width is that of the operands; of ?: it is the condition's.
                let found = digits(apply(operator, 3, operands), result(operator));
                let [a, b, c] = [a, b, c].map(|value| digits(value, 3));
                let expected = expected(operator, &a, &b, &c);
                assert_eq!(found, expected, "{operator:?} {a:?} {b:?} {c:?}");
            }
        }
    }
}

fn pairs() -> impl Iterator<Item = (Value, Value)> {
    values().into_iter().flat_map(|a| values().into_iter().map(move |b| (a, b)))
}

// ---- the calls

/// The lines of a script that start with a word, and the hexadecimal digits at their end as values of 8
/// bytes from a byte on.
fn answers(script: &[u8], word: &str) -> Vec<Vec<u8>> {
    let mut out = Vec::new();
    replay(script, &mut out).expect("a list takes all");
    let text = String::from_utf8(out).expect("text");
    let lines = text.lines().filter(|line| line.starts_with(word));
    let byte = |pair: &[u8]| {
        u8::from_str_radix(std::str::from_utf8(pair).expect("digits"), 16).expect("digits")
    };
    let bytes = |line: &str| {
        let digits = line.rsplit(' ').next().expect("a word");
        digits.as_bytes().chunks(2).map(byte).collect()
    };
    lines.map(bytes).collect()
}

fn value_at(bytes: &[u8], place: usize) -> Value {
    let number = |at: usize| u32::from_le_bytes(bytes[at..at + 4].try_into().expect("4 bytes"));
    Value { number: number(place), unknown: number(place + 4) }
}

/// In the registers and in the wires, from two places on.
fn as_in_the_tables(lines: &[Vec<u8>], registers: usize, wires: usize) {
    assert_eq!(lines.len(), VALUES * VALUES);
    for (row, line) in rows().into_iter().zip(lines) {
        let inputs: Vec<Digits> = row.into_iter().map(|value| digits(value, 3)).collect();
        let [a, b, c] = &inputs[..] else { panic!("three inputs") };
        for (index, operator) in Operator::ALL.into_iter().enumerate() {
            let expected = expected(operator, a, b, c);
            for from in [registers, wires] {
                let found = digits(value_at(line, from + 8 * index), result(operator));
                assert_eq!(found, expected, "{operator:?} {a:?} {b:?} {c:?}");
            }
        }
        let leg = if c.contains(&'1') { 1 } else { 2 };
        assert_eq!(value_at(line, registers + 80), Value::known(leg), "{c:?}");
    }
}

#[test]
fn cycle_runs_are_as_in_the_tables() {
    as_in_the_tables(&answers(&by_rows(), "cycle 0 "), 0, 8 * 32 + 8);
}

#[test]
fn events_are_as_in_the_tables() {
    as_in_the_tables(&answers(&by_rows(), "state "), 8 * 4, 8 * 15);
}

#[test]
fn every_condition_is_as_in_the_tables() {
    let lines = answers(&by_conditions(), "cycle 0 ");
    assert_eq!(lines.len(), VALUES * VALUES);
    for ((a, b), line) in pairs().zip(&lines) {
        for (index, c) in values().into_iter().enumerate() {
            let found = digits(value_at(line, 8 * 32 + 8 + 8 * index), 3);
            let [a, b, c] = [a, b, c].map(|value| digits(value, 3));
            assert_eq!(found, expected(Operator::Conditional, &a, &b, &c), "{a:?} {b:?} {c:?}");
        }
    }
}
