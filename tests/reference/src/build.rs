//! Modules and states, written short.

use crate::encode::encode;
use crate::module::{Edge, Expr, Module, Operator, Stmt, Term};
use crate::sheet::{Refusal, read};
use crate::state::{MOST, State};
use crate::value::Value;

pub const CLK: u8 = 0;

pub fn v(variable: u8) -> Expr {
    Expr::Variable(variable)
}

pub fn num(width: u8, value: u32) -> Expr {
    Expr::Constant { width, value }
}

pub fn add(a: Expr, b: Expr) -> Expr {
    Expr::Operation(Operator::Add, vec![a, b])
}

pub fn mux(condition: Expr, a: Expr, b: Expr) -> Expr {
    Expr::Operation(Operator::Conditional, vec![condition, a, b])
}

pub fn set(target: u8, value: Expr) -> Stmt {
    Stmt::Set(target, value)
}

pub fn later(target: u8, value: Expr) -> Stmt {
    Stmt::Later(target, value)
}

/// `@(a or b ..)`
pub fn any(variables: &[u8]) -> Stmt {
    let term = |&variable| Term { edge: Edge::Any, variable };
    Stmt::Wait(variables.iter().map(term).collect())
}

/// `@(posedge clk) ..`
pub fn at_clk(statements: Vec<Stmt>) -> Stmt {
    Stmt::sequence(Stmt::posedge(CLK), Stmt::list(statements))
}

/// A module by the widths of its inputs and registers and the widths and expressions of
/// its wires, written as a sheet.
pub fn sheet(
    inputs: &[u8],
    registers: &[u8],
    wires: Vec<(u8, Expr)>,
    threads: Vec<Stmt>,
) -> Vec<u8> {
    let wire_widths: Vec<u8> = wires.iter().map(|wire| wire.0).collect();
    encode(&Module {
        inputs: inputs.len() as u8,
        registers: registers.len() as u8,
        widths: [inputs, registers, &wire_widths].concat(),
        functions: Vec::new(),
        wires: wires.into_iter().map(|wire| wire.1).collect(),
        threads,
    })
}

/// The same, read.
pub fn module(
    inputs: &[u8],
    registers: &[u8],
    wires: Vec<(u8, Expr)>,
    threads: Vec<Stmt>,
) -> Result<Module, Refusal> {
    read(&sheet(inputs, registers, wires, threads))
}

/// A module's state in which the variables from 0 up have these values, nothing is due and all
/// places are 0.
pub fn state(reading: &Result<Module, Refusal>, values: &[Option<u32>]) -> State {
    let module = reading.as_ref().expect("read");
    let mut state = State::start(&module.widths, 0, MOST);
    for (slot, &value) in state.values.iter_mut().zip(values) {
        *slot = value.map_or(*slot, Value::known);
    }
    state
}

pub fn known(numbers: &[u32]) -> Vec<Value> {
    numbers.iter().copied().map(Value::known).collect()
}

/// The values of the variables from 0 up, none where a bit is unknown.
pub fn values(state: &State, count: usize) -> Vec<Option<u32>> {
    state.values[..count].iter().map(|value| value.as_known()).collect()
}
