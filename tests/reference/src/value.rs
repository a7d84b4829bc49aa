//! Values, operators, conditions and edges.
//!
//! Document 01, "Values and pseudo-code" and "The simulation cycle", with document 02's requests
//! [2], [4] and [5].

use std::fmt::{self, Display, Formatter};

use crate::module::{Edge, Expr, Function, Operator, Stmt, Variable};
use crate::sheet::{MOST_WIDTH, result_width};

/// A number and the marks of its unknown bits. Under each mark the number has 0; one that hasn't
/// can be handed over, and is judged there.
#[derive(Clone, Copy, Debug, PartialEq, Eq, Hash, PartialOrd, Ord)]
pub struct Value {
    pub number: u32,
    pub unknown: u32,
}

/// What a value is as a condition.
#[derive(Clone, Copy, Debug, PartialEq, Eq)]
pub enum Truth {
    Holds,
    Fails,
    Unknown,
}

impl Value {
    pub const ZERO: Value = Value::known(0);
    /// Where no width is at hand: all 32 bits are unknown.
    pub const NOWHERE: Value = Value::x(MOST_WIDTH);

    pub const fn known(number: u32) -> Value {
        Value { number, unknown: 0 }
    }

    /// Unknown in every bit of the width.
    pub const fn x(width: u8) -> Value {
        Value { number: 0, unknown: mask(width) }
    }

    /// By the bits that are known to be 1 and to be 0; the others of the width are unknown.
    fn by_bits(width: u8, ones: u32, zeros: u32) -> Value {
        Value { number: ones, unknown: mask(width) & !(ones | zeros) }
    }

    /// The bits known to be 0.
    fn zeros(self, width: u8) -> u32 {
        mask(width) & !(self.number | self.unknown)
    }

    pub fn is_known(self) -> bool {
        self.unknown == 0
    }

    /// The number, where every bit is known.
    pub fn as_known(self) -> Option<u32> {
        self.is_known().then_some(self.number)
    }

    /// Some known bit is 1; or all bits are known and 0; or neither.
    pub fn truth(self) -> Truth {
        match (self.number, self.unknown) {
            (0, 0) => Truth::Fails,
            (0, _) => Truth::Unknown,
            _ => Truth::Holds,
        }
    }

    /// A condition holds if some known bit is 1.
    pub fn holds(self) -> bool {
        self.truth() == Truth::Holds
    }

    /// Number and marks are below 2^width, with 0 under each mark.
    pub fn fits(self, width: u8) -> bool {
        self.number <= mask(width)
            && self.unknown <= mask(width)
            && self.number & self.unknown == 0
    }
}

/// The number, and behind a `?` the marks in hexadecimal where there are any.
impl Display for Value {
    fn fmt(&self, f: &mut Formatter) -> fmt::Result {
        match (self.number, self.unknown) {
            (number, 0) => write!(f, "{number}"),
            (number, unknown) => write!(f, "{number}?{unknown:x}"),
        }
    }
}

/// The greatest number of a width, 1 to 32.
pub const fn mask(width: u8) -> u32 {
    u32::MAX >> (32 - width as u32)
}

/// What an operator gives. The width is that of its first operand.
pub fn apply(operator: Operator, width: u8, operands: &[Value]) -> Value {
    match (operator, operands) {
        (Operator::Conditional, &[condition, a, b]) => choose(condition, a, b),
        (Operator::Invert, &[a]) => Value::by_bits(width, a.zeros(width), a.number),
        (Operator::Not, &[a]) => match a.truth() {
            Truth::Holds => Value::known(0),
            Truth::Fails => Value::known(1),
            Truth::Unknown => Value::x(1),
        },
        (_, &[a, b]) => binary(operator, width, a, b),
        _ => unreachable!("as many operands as the operator has"),
    }
}

/// Bit by bit for `&`, `|` and `^`. Addition and subtraction wrap at the width; they and `<` give all
/// unknown on any unknown bit. `==` gives 0 where bits known in both differ, else x on any unknown
/// bit.
fn binary(operator: Operator, width: u8, a: Value, b: Value) -> Value {
    let ((a1, a0), (b1, b0)) = ((a.number, a.zeros(width)), (b.number, b.zeros(width)));
    let unlike = a1 & b0 | a0 & b1;
    let surely = |width, number| match a.is_known() && b.is_known() {
        true => Value::known(number),
        false => Value::x(width),
    };
    match operator {
        Operator::And => Value::by_bits(width, a1 & b1, a0 | b0),
        Operator::Or => Value::by_bits(width, a1 | b1, a0 & b0),
        Operator::Xor => Value::by_bits(width, unlike, a1 & b1 | a0 & b0),
        Operator::Add => surely(width, a1.wrapping_add(b1) & mask(width)),
        Operator::Subtract => surely(width, a1.wrapping_sub(b1) & mask(width)),
        Operator::Equal if unlike != 0 => Value::known(0),
        Operator::Equal => surely(1, 1),
        Operator::Less => surely(1, u32::from(a1 < b1)),
        _ => unreachable!("an operator of two operands"),
    }
}

/// The arm chosen; on an unknown condition the bits in which both arms agree, the others unknown.
fn choose(condition: Value, a: Value, b: Value) -> Value {
    match condition.truth() {
        Truth::Holds => a,
        Truth::Fails => b,
        Truth::Unknown => {
            let unknown = a.unknown | b.unknown | a.number ^ b.number;
            Value { number: a.number & b.number, unknown }
        }
    }
}

/// What an expression is worked out on: each variable's width and value, and the functions.
pub trait Scope {
    fn width(&self, variable: Variable) -> u8;
    fn value(&self, variable: Variable) -> Value;
    fn functions(&self) -> &[Function];
}

/// The value of an expression.
pub fn evaluate(e: &Expr, scope: &impl Scope) -> Value {
    evaluate_sized(e, scope, &mut 0).0
}

/// The value of an expression, and how many bodies were run for it.
pub fn evaluate_counting(e: &Expr, scope: &impl Scope) -> (Value, u64) {
    let mut runs = 0;
    let value = evaluate_sized(e, scope, &mut runs).0;
    (value, runs)
}

/// The value of an expression and its width.
fn evaluate_sized(e: &Expr, scope: &impl Scope, runs: &mut u64) -> (Value, u8) {
    match e {
        Expr::Variable(variable) => (scope.value(*variable), scope.width(*variable)),
        Expr::Constant { width, value } => (Value::known(*value), *width),
        Expr::Unknown { width } => (Value::x(*width), *width),
        Expr::Operation(operator, operands) => {
            let mut values = [Value::ZERO; 3];
            let mut widths = [0; 3];
            for (index, operand) in operands.iter().enumerate() {
                (values[index], widths[index]) = evaluate_sized(operand, scope, runs);
            }
            let arity = operands.len();
            let width =
                result_width(*operator, &widths[..arity]).expect("read with its widths");
            (apply(*operator, widths[0], &values[..arity]), width)
        }
        Expr::Call(number, arguments) => {
            let mut values: Vec<Value> =
                arguments.iter().map(|a| evaluate_sized(a, scope, runs).0).collect();
            let function = &scope.functions()[usize::from(*number)];
            values.push(Value::x(function.result));
            let mut frame = Frame { function, values, functions: scope.functions() };
            *runs += 1;
            frame.run(&function.body, runs);
            (frame.values[arguments.len()], function.result)
        }
    }
}

/// What a body is worked out on: its arguments and the result, which starts unknown at each call.
struct Frame<'a> {
    function: &'a Function,
    values: Vec<Value>,
    functions: &'a [Function],
}

impl Scope for Frame<'_> {
    fn width(&self, variable: Variable) -> u8 {
        let parameters = &self.function.parameters;
        *parameters.get(usize::from(variable)).unwrap_or(&self.function.result)
    }

    fn value(&self, variable: Variable) -> Value {
        self.values[usize::from(variable)]
    }

    fn functions(&self) -> &[Function] {
        self.functions
    }
}

impl Frame<'_> {
    fn run(&mut self, body: &Stmt, runs: &mut u64) {
        match body {
            Stmt::Empty => {}
            Stmt::Set(target, e) => {
                self.values[usize::from(*target)] = evaluate_sized(e, self, runs).0;
            }
            Stmt::Sequence(a, b) => {
                self.run(a, runs);
                self.run(b, runs);
            }
            Stmt::If(e, a) => {
                if evaluate_sized(e, self, runs).0.holds() {
                    self.run(a, runs);
                }
            }
            Stmt::IfElse(e, a, b) => {
                let leg = if evaluate_sized(e, self, runs).0.holds() { a } else { b };
                self.run(leg, runs);
            }
            _ => unreachable!("a body has no wait, loop or later assignment"),
        }
    }
}

/// Whether the edge fires as a variable goes from one value to another. A change is one of number
/// or marks.
pub fn fires(edge: Edge, before: Value, now: Value) -> bool {
    let (low, high) = (Value::known(0), Value::known(1));
    match edge {
        Edge::Any => now != before,
        Edge::Posedge => now != before && (before == low || now == high),
        Edge::Negedge => now != before && (before == high || now == low),
    }
}
