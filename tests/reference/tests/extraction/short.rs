//! Written short: numbers and words of small modules.

use reference::build;
use reference::compiler::{Compiler, Lane};
use reference::extraction::{NODE_WORDS, ROW_WORDS, extract};
use reference::module::{Expr, Module, Operator, Stmt};
use reference::value::Value;

pub fn module(
    inputs: &[u8],
    registers: &[u8],
    wires: Vec<(u8, Expr)>,
    threads: Vec<Stmt>,
) -> Module {
    build::module(inputs, registers, wires, threads).expect("a sheet that is read")
}

/// The number that extraction gives, 0 where it accepts.
pub fn number(module: &Module) -> u8 {
    extract(module).err().unwrap_or(0)
}

/// The number of a module with inputs of widths 1 and 8 and registers of width 8.
pub fn of_threads(registers: usize, threads: Vec<Stmt>) -> u8 {
    number(&module(&[1, 8], &vec![8; registers], vec![], threads))
}

/// The same with one thread, the registers r and s.
pub fn of_thread(thread: Stmt) -> u8 {
    of_threads(2, vec![thread])
}

pub fn not(e: Expr) -> Expr {
    Expr::Operation(Operator::Invert, vec![e])
}

pub const LENT: u16 = 43690;

/// Tables as lent.
pub fn lent() -> (Vec<u16>, Vec<u16>) {
    (vec![LENT; NODE_WORDS], vec![LENT; ROW_WORDS])
}

/// The tables that extraction fills.
pub fn tables(module: &Module) -> (Vec<u16>, Vec<u16>) {
    let (mut nodes, mut rows) = lent();
    let reading = Ok(module.clone());
    Compiler::new(&reading).extract(&mut nodes, &mut rows).expect("extractable");
    (nodes, rows)
}

/// A lane with these first registers and places; the others have odd contents.
pub fn lane(registers: &[Value], places: &[u8]) -> Lane {
    let mut lane = Lane {
        registers: [Value { unknown: 70, number: 77 }; 32],
        places: [99; 8],
        wires: [Value::known(5); 32],
    };
    lane.registers[..registers.len()].copy_from_slice(registers);
    lane.places[..places.len()].copy_from_slice(places);
    lane
}
