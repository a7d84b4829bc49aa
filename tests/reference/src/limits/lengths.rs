//! 256 and 257 instructions, 8,192 and 8,193 bytes.

use super::{
    CLOCK, DATA, Sample, THREAD, WIDE, WIRE_HEAD, accepted, bytes, ends, refused, thread,
};
use crate::encode::{encode, encode_expr, encode_stmt};
use crate::module::{Expr, Module, Operator, Stmt};
use crate::samples::FLIP_FLOP;
use crate::sheet::{MOST_BYTES, number};

/// So many non-blocking assignments in a tree of even depth.
fn assignments(count: usize) -> Stmt {
    match count {
        0 => Stmt::Empty,
        1 => Stmt::Later(WIDE, Expr::Variable(DATA)),
        _ => Stmt::sequence(assignments(count / 2), assignments(count - count / 2)),
    }
}

/// Statements of exactly so many instructions, at least 4.
fn sized(count: usize) -> Vec<Stmt> {
    let condition = || Expr::Variable(CLOCK);
    vec![
        assignments(count),
        Stmt::when(condition(), assignments(count - 1)),
        Stmt::if_else(condition(), assignments(count / 2), assignments(count - 2 - count / 2)),
        Stmt::if_else(condition(), assignments(count - 2), Stmt::Empty),
        Stmt::while_loop(condition(), assignments(count - 2)),
        Stmt::forever(assignments(count - 1)),
        Stmt::sequence(Stmt::forever(Stmt::forever(Stmt::Empty)), assignments(count - 2)),
        Stmt::sequence(assignments(count - 1), Stmt::posedge(CLOCK)),
    ]
}

pub fn instructions() -> Vec<Sample> {
    let mut samples = Vec::new();
    let limit = sized(255).into_iter().map(|s| encode_stmt(&s));
    let past = sized(256).into_iter().map(|s| encode_stmt(&s));
    for (limit, past) in limit.zip(past) {
        samples.push(accepted(thread(&limit)));
        samples.push(refused(number::THREAD, THREAD, thread(&past)));
        // Before bytes after the end; after what is wrong inside the thread.
        samples.push(refused(number::THREAD, THREAD, thread(&[&past[..], &[0x00]].concat())));
        samples.push(ends(thread(&past[..past.len() - 1])));
        let two = |first: &[u8], second: &[u8]| {
            let mut sheet = thread(&[first, second].concat());
            sheet[3] = 2;
            sheet
        };
        samples.push(accepted(two(&limit, &limit)));
        samples.push(refused(number::THREAD, THREAD, two(&past, &[0xFF])));
        samples.push(refused(number::THREAD, THREAD, two(&past, &[])));
        samples.push(refused(number::THREAD, THREAD, two(&past, &past)));
        samples.push(refused(number::THREAD, THREAD + limit.len(), two(&limit, &past)));
    }
    for count in [300, 511, 512, 513, 1000] {
        let statement = encode_stmt(&assignments(count));
        samples.push(refused(number::THREAD, THREAD, thread(&statement)));
    }
    // Many statements without any instruction.
    let empty = (0..11).fold(Stmt::Empty, |s, _| Stmt::sequence(s.clone(), s));
    samples.push(accepted(thread(&encode_stmt(&empty))));
    samples
}

/// An 8-bit expression of exactly so many bytes, an even number.
pub fn long_expr(bytes: usize) -> Expr {
    match bytes {
        2 => Expr::Variable(DATA),
        4 => Expr::Operation(Operator::Invert, vec![long_expr(2)]),
        _ => {
            let left = (bytes - 2) / 4 * 2;
            let operands = vec![long_expr(left), long_expr(bytes - 2 - left)];
            Expr::Operation(Operator::Xor, operands)
        }
    }
}

/// An accepted sheet of exactly so many bytes, mostly one wire.
fn long_wire(bytes: usize) -> Vec<u8> {
    let left = bytes - WIRE_HEAD.len();
    let statement = if left % 2 == 1 { Stmt::Empty } else { Stmt::forever(Stmt::Empty) };
    let statement = encode_stmt(&statement);
    let expr = encode_expr(&long_expr(left - statement.len()));
    [&WIRE_HEAD[..], &expr, &statement].concat()
}

/// An accepted sheet of exactly 8,192 bytes with all 2,048 instructions.
pub fn fullest() -> Vec<u8> {
    let mut threads = vec![busy_thread(); 8];
    // What is left lengthens the first assignment's expression.
    let short = MOST_BYTES - encode(&eight_threads(threads.clone())).len();
    let longer = Stmt::Later(WIDE, long_expr(2 + short));
    threads[0] = with_first(threads[0].clone(), longer);
    encode(&eight_threads(threads))
}

fn eight_threads(threads: Vec<Stmt>) -> Module {
    let (widths, functions, wires) = (vec![1, 8, 8, 1], Vec::new(), Vec::new());
    Module { inputs: 2, registers: 2, widths, functions, wires, threads }
}

/// 255 instructions in 1,022 bytes: assignments, and loops of three instructions.
fn busy_thread() -> Stmt {
    let one = Stmt::while_loop(Expr::Variable(CLOCK), assignments(1));
    Stmt::sequence(assignments(255 - 3 * 36), balanced(&vec![one; 36]))
}

fn balanced(statements: &[Stmt]) -> Stmt {
    match statements {
        [] => Stmt::Empty,
        [one] => one.clone(),
        many => {
            let (left, right) = many.split_at(many.len() / 2);
            Stmt::sequence(balanced(left), balanced(right))
        }
    }
}

/// The sequence with another first statement.
fn with_first(statement: Stmt, first: Stmt) -> Stmt {
    match statement {
        Stmt::Sequence(a, b) => Stmt::sequence(with_first(*a, first), *b),
        _ => first,
    }
}

pub fn sheet_lengths() -> Vec<Sample> {
    let flip_flop = FLIP_FLOP.sheet();
    let mut samples = vec![ends(Vec::new()), accepted(flip_flop.clone()), accepted(fullest())];
    for after in bytes() {
        samples.push(refused(number::AFTER, 16, [&flip_flop[..], &[after]].concat()));
        samples.push(refused(number::AFTER, 16, [&flip_flop[..], &[after; 3]].concat()));
    }
    for length in [8189, 8190, 8191, 8192] {
        samples.push(accepted(long_wire(length)));
        samples.push(ends(long_wire(length)[..length - 1].to_vec()));
    }
    samples.push(refused(number::AFTER, 8191, [&long_wire(8191)[..], &[0x00]].concat()));
    samples.push(refused(number::AFTER, 16, [&flip_flop[..], &[0; 8176]].concat()));
    for length in [8193, 8194, 8448, 16384, 65536, 65537, 70000] {
        let padded = flip_flop.iter().copied().chain(std::iter::repeat(0)).take(length);
        samples.push(refused(number::TOO_LONG, 8192, padded.collect()));
        samples.push(refused(number::TOO_LONG, 8192, vec![0; length]));
        samples.push(refused(number::TOO_LONG, 8192, long_wire(length)));
    }
    samples
}
