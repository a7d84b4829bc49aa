//! Written short: modules with functions.

use reference::build::{num, v};
use reference::encode::encode;
use reference::module::{Expr, Function, Module, Operator, Stmt};
use reference::sheet::read_with_functions;

pub fn call(number: u8, arguments: Vec<Expr>) -> Expr {
    Expr::Call(number, arguments)
}

pub fn function(parameters: &[u8], result: u8, body: Stmt) -> Function {
    Function { parameters: parameters.to_vec(), result, body }
}

pub fn less(a: Expr, b: Expr) -> Expr {
    Expr::Operation(Operator::Less, vec![a, b])
}

pub fn not(e: Expr) -> Expr {
    Expr::Operation(Operator::Invert, vec![e])
}

/// The lower of two 8-bit numbers; the result is variable 2.
pub fn lower() -> Function {
    let [a, b, r] = [0, 1, 2];
    let body = Stmt::if_else(less(v(a), v(b)), Stmt::Set(r, v(a)), Stmt::Set(r, v(b)));
    function(&[8, 8], 8, body)
}

/// `8'd9` where the parameter holds, else what the result is.
pub fn sometimes() -> Function {
    function(&[8], 8, Stmt::when(v(0), Stmt::Set(1, num(8, 9))))
}

/// A module by its functions and the widths and expressions of the others, read from its sheet.
pub fn module(
    functions: Vec<Function>,
    inputs: &[u8],
    registers: &[u8],
    wires: Vec<(u8, Expr)>,
    threads: Vec<Stmt>,
) -> Module {
    let wire_widths: Vec<u8> = wires.iter().map(|wire| wire.0).collect();
    let module = Module {
        inputs: inputs.len() as u8,
        registers: registers.len() as u8,
        widths: [inputs, registers, &wire_widths].concat(),
        functions,
        wires: wires.into_iter().map(|wire| wire.1).collect(),
        threads,
    };
    let reading = read_with_functions(&encode(&module));
    assert_eq!(reading.as_ref(), Ok(&module));
    module
}
