//! Every operator on all pairs of values of three bits, each bit 0, 1 or x, as calls: by events and by
//! expressions, in wires and in registers.

use crate::encode::encode;
use crate::extraction::{REGISTERS, text::Thread};
use crate::module::{Expr, Module, Operator, Stmt, Variable};
use crate::replay::{Cycle, Lent, Record, Script};
use crate::state::{MOST, PLACES};
use crate::value::Value;

/// The bits of each value.
pub const WIDTH: u8 = 3;
/// How many values there are: three digits for each bit.
pub const VALUES: usize = 27;
/// The inputs: two operands, and the condition of ?:.
const A: Variable = 1;
const B: Variable = 2;
const C: Variable = 3;
const INPUTS: u8 = 4;

/// All values of three bits.
pub fn values() -> Vec<Value> {
    let bit = |value: &Value, number, unknown| Value {
        number: value.number << 1 | number,
        unknown: value.unknown << 1 | unknown,
    };
    let longer = |value: Value| [bit(&value, 0, 0), bit(&value, 1, 0), bit(&value, 0, 1)];
    (0..WIDTH)
        .fold(vec![Value::ZERO], |values, _| values.into_iter().flat_map(longer).collect())
}

/// A wire and a register for each operator, in their order, and one register more that an if on the
/// third input sets to 1 or 2.
pub fn module() -> Module {
    let operation = |operator: Operator| {
        let operands: &[Variable] = match operator {
            Operator::Conditional => &[C, A, B],
            Operator::Invert | Operator::Not => &[A],
            _ => &[A, B],
        };
        Expr::Operation(operator, operands.iter().copied().map(Expr::Variable).collect())
    };
    let results = Operator::ALL.map(result);
    let wires = Operator::ALL.map(operation);
    let assignments = (INPUTS..).zip(&wires).map(|(r, e)| Stmt::Later(r, e.clone()));
    let last = INPUTS + Operator::ALL.len() as u8;
    let put = |value| Stmt::Later(last, Expr::Constant { width: WIDTH, value });
    let branch = Stmt::if_else(Expr::Variable(C), put(1), put(2));
    let body = Stmt::list(assignments.chain([branch]).collect());
    Module {
        inputs: INPUTS,
        registers: last - INPUTS + 1,
        widths: [&[1, WIDTH, WIDTH, WIDTH], &results[..], &[WIDTH], &results].concat(),
        functions: Vec::new(),
        wires: wires.into(),
        threads: vec![Stmt::sequence(Stmt::posedge(0), body)],
    }
}

/// The width of what an operator gives.
pub fn result(operator: Operator) -> u8 {
    match operator {
        Operator::Not | Operator::Equal | Operator::Less => 1,
        _ => WIDTH,
    }
}

/// Inputs from 1 up: all pairs, with each condition in turn.
pub fn rows() -> Vec<Vec<Value>> {
    let values = values();
    let row = |index: usize| {
        let (a, b) = (index / VALUES, index % VALUES);
        vec![values[a], values[b], values[(7 * a + b) % VALUES]]
    };
    (0..VALUES * VALUES).map(row).collect()
}

/// A cycle run for each row; then the same rows by events, each with the state after its rise.
pub fn by_rows() -> Vec<u8> {
    let mut records = vec![Record::Extract(Lent::RIGHT)];
    records.extend(rows().into_iter().map(|row| cycle(&module(), &[], row)));
    records.extend([Record::Start(MOST), Record::Plain(0, u16::MAX)]);
    for row in rows() {
        for clock in [0, 1] {
            let inputs = [&[Value::known(clock)], &row[..]].concat();
            records.extend([Record::Instant(inputs), Record::Plain(0, u16::MAX)]);
        }
        records.push(Record::Dump);
    }
    Script::write(&encode(&module()), &records)
}

/// A register for each condition, and a wire that chooses by it between the two operands.
pub fn chooser() -> Module {
    let conditions = 3..3 + VALUES as u8;
    let wire = |c| {
        let operands = [c, A, B].map(Expr::Variable).to_vec();
        Expr::Operation(Operator::Conditional, operands)
    };
    Module {
        inputs: 3,
        registers: VALUES as u8,
        widths: [&[1][..], &[WIDTH; 2 + 2 * VALUES]].concat(),
        functions: Vec::new(),
        wires: conditions.map(wire).collect(),
        threads: vec![Stmt::posedge(0)],
    }
}

/// A cycle run of the chooser for each pair.
pub fn by_conditions() -> Vec<u8> {
    let mut records = vec![Record::Extract(Lent::RIGHT)];
    let pairs = rows().into_iter().map(|row| row[..2].to_vec());
    records.extend(pairs.map(|pair| cycle(&chooser(), &values(), pair)));
    Script::write(&encode(&chooser()), &records)
}

/// From these registers, or unknown ones, at the first wait.
fn cycle(module: &Module, registers: &[Value], inputs: Vec<Value>) -> Record {
    let own = &module.widths[module.inputs.into()..][..module.registers.into()];
    let mut all = [Value::NOWHERE; REGISTERS];
    all.iter_mut().zip(own).for_each(|(register, &width)| *register = Value::x(width));
    all[..registers.len()].copy_from_slice(registers);
    let mut places = [0; PLACES];
    let waits = Thread::all(module).into_iter().map(|thread| thread.waits[0]);
    places.iter_mut().zip(waits).for_each(|(place, wait)| *place = wait);
    Record::Cycle(Box::new(Cycle { lent: Lent::RIGHT, registers: all, places, inputs }))
}
