//! Modules and inputs for comparisons with other simulators.

use crate::book::Book;
use crate::extractable;
use crate::extraction::extract;
use crate::functions::With;
use crate::module::{Expr, Module, Stmt};
use crate::random::Random;
use crate::value::{Value, mask};

/// Known inputs of each cycle, from input 1 up.
pub type Rows = Vec<Vec<u32>>;

// ---- the bench modules

/// Inputs of a bench module. The first cycle resets; after it resets are rare.
pub fn bench_rows(name: &str, cycles: usize, seed: u64) -> Rows {
    let mut random = Random::new(seed);
    let mut held = 0;
    (0..cycles)
        .map(|cycle| {
            let reset = u32::from(cycle == 0 || (name != "pipe8" && random.chance(1, 500)));
            if random.chance(1, 6) {
                held = random.below(4096) as u32;
            }
            match name {
                "dff" => vec![random.below(256) as u32],
                "counter" => vec![reset, u32::from(random.chance(3, 4))],
                "watchdog" => vec![reset, held, 3, u32::from(random.chance(1, 4))],
                _ => {
                    let low = random.below(65_536) as u32;
                    vec![reset, u32::from(random.chance(1, 2)), low + 65_536 * (held % 65_536)]
                }
            }
        })
        .collect()
}

// ---- random modules

/// A module whose Verilog is about as long as can be: threads of many assignments, nested deep.
pub fn deep_module() -> Module {
    let assignment = Stmt::Later(1, Expr::Variable(1));
    let block = (0..7).fold(assignment, |s, _| Stmt::sequence(s.clone(), s));
    let nested = (0..54).fold(block, |s, _| Stmt::when(Expr::Variable(1), s));
    let thread = Stmt::sequence(Stmt::posedge(0), nested);
    let (widths, wires, threads) = (vec![1, 1], Vec::new(), vec![thread; 8]);
    let functions = Vec::new();
    Module { inputs: 1, registers: 1, widths, functions, wires, threads }
}

/// The rows as values, with unknown bits here and there. Now and then the first row, which resets,
/// stands in the place of another, so that what was lost is known again.
pub fn blurred(rows: &Rows, module: &Module, random: &mut Random) -> Vec<Vec<Value>> {
    let widths = &module.widths[1..module.inputs.into()];
    let blur = |row: &Vec<u32>| {
        if random.chance(1, 12) {
            return rows[0].iter().copied().map(Value::known).collect();
        }
        let pairs = row.iter().zip(widths);
        pairs.map(|(&number, &width)| some_unknown(number, width, 10, random)).collect()
    };
    rows.iter().map(blur).collect()
}

/// Inputs that fit, some with unknown bits; now and then one stays as it was.
fn rows(module: &Module, cycles: usize, random: &mut Random) -> Vec<Vec<Value>> {
    let widths = &module.widths[1..module.inputs.into()];
    let mut row: Vec<Value> = vec![Value::ZERO; widths.len()];
    let next = |_| {
        for (value, &width) in row.iter_mut().zip(widths) {
            if random.chance(2, 3) {
                *value = some_unknown(number(width, random), width, 3, random);
            }
        }
        row.clone()
    };
    (0..cycles).map(next).collect()
}

/// Whether some register comes to have known bits beside unknown ones.
fn comes_to_parts(module: &Module, rows: &[Vec<Value>]) -> bool {
    let extraction = extract(module).expect("extractable");
    let mut book = Book::new(module, &extraction);
    let registers = module.inputs..module.inputs + module.registers;
    rows.iter().any(|row| {
        for clock in [0, 1] {
            book.instant(&[&[Value::known(clock)], &row[..]].concat());
        }
        registers.clone().any(|register| {
            let unknown = book.values.get(register).unknown;
            unknown != 0 && unknown != mask(module.widths[usize::from(register)])
        })
    })
}

/// A random module that extraction accepts, and inputs; where it is asked for, one in which some
/// register comes to have known bits beside unknown ones.
pub fn sample(cycles: usize, parts: bool, random: &mut Random) -> (Module, Vec<Vec<Value>>) {
    sample_by(With::AsRead, cycles, parts, random)
}

pub fn sample_by(
    with: With,
    cycles: usize,
    parts: bool,
    random: &mut Random,
) -> (Module, Vec<Vec<Value>>) {
    loop {
        let module = extractable::module_by(with, random);
        let rows = rows(&module, cycles, random);
        if !parts || comes_to_parts(&module, &rows) {
            return (module, rows);
        }
    }
}

/// The number, one time in so many with unknown bits: one, any, or all.
fn some_unknown(number: u32, width: u8, times: usize, random: &mut Random) -> Value {
    let unknown = match random.below(5 * times) {
        0 | 1 => mask(width) & 1 << random.below(width.into()),
        2 | 3 => random.number() as u32 & mask(width),
        4 => mask(width),
        _ => 0,
    };
    Value { number: number & !unknown, unknown }
}

/// Small numbers and the greatest one more often than others.
fn number(width: u8, random: &mut Random) -> u32 {
    let number = match random.below(4) {
        0 => random.below(3) as u32,
        1 => u32::MAX - random.below(2) as u32,
        _ => random.number() as u32,
    };
    number & mask(width)
}
