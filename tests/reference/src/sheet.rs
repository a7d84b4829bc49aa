//! Reading a sheet of any bytes: a module, or the number and place of a refusal.
//!
//! Document 01, "The sheet" and "Numbers that come from the input". What is met
//! first from left to right decides; in a node: end, depth, map, each field as
//! read, then widths.
//!
//! Document 02, [5]: sheets with functions.

use crate::module::{Edge, Expr, Function, Module, Operator, Stmt, Term, Variable};
use crate::pseudocode::thread_size;

pub const MOST_BYTES: usize = 8192;
pub const MOST_INPUTS: u8 = 16;
pub const MOST_REGISTERS: u8 = 32;
pub const MOST_WIRES: u8 = 32;
pub const MOST_THREADS: u8 = 8;
pub const MOST_WIDTH: u8 = 32;
pub const MOST_TERMS: u8 = 8;
pub const EXPR_DEPTH: usize = 16;
pub const STMT_DEPTH: usize = 64;
pub const MOST_INSTRUCTIONS: usize = 256;
/// "A sheet whose first byte has 128 added carries a count of functions."
pub const WITH_FUNCTIONS: u8 = 128;
pub const MOST_FUNCTIONS: u8 = 8;
pub const MOST_PARAMETERS: u8 = 4;

/// Whether `read` takes sheets with functions, and the random modules have some. The proved
/// program refuses them with 3 as long as this is off.
pub const FUNCTIONS: bool = cfg!(feature = "functions");

/// The numbers 1 to 11, 44 and 45.
pub mod number {
    pub const TOO_LONG: u8 = 1;
    pub const END: u8 = 2;
    pub const COUNT: u8 = 3;
    pub const WIDTH: u8 = 4;
    pub const MAP: u8 = 5;
    pub const FIELD: u8 = 6;
    pub const DEPTH: u8 = 7;
    pub const DISAGREE: u8 = 8;
    pub const TARGET: u8 = 9;
    pub const AFTER: u8 = 10;
    pub const THREAD: u8 = 11;
    pub const LATER_FUNCTION: u8 = 44;
    pub const BODY: u8 = 45;
}

/// The numbers that reading can give.
pub fn read_numbers() -> Vec<u8> {
    let functions = [number::LATER_FUNCTION, number::BODY].into_iter().filter(|_| FUNCTIONS);
    (1..=11).chain(functions).collect()
}

/// Why a sheet isn't read, and the byte at which that was met.
#[derive(Clone, Copy, Debug, PartialEq, Eq)]
pub struct Refusal {
    pub number: u8,
    pub place: usize,
}

type Reading<T> = Result<T, Refusal>;

fn refuse<T>(number: u8, place: usize) -> Reading<T> {
    Err(Refusal { number, place })
}

/// The module that the sheet says, or the first thing wrong with it.
pub fn read(sheet: &[u8]) -> Reading<Module> {
    read_by(sheet, FUNCTIONS)
}

/// The same, sheets with functions among them.
pub fn read_with_functions(sheet: &[u8]) -> Reading<Module> {
    read_by(sheet, true)
}

fn read_by(sheet: &[u8], functions: bool) -> Reading<Module> {
    if sheet.len() > MOST_BYTES {
        return refuse(number::TOO_LONG, MOST_BYTES);
    }
    let mut reader = Reader { sheet, place: 0 };
    let module = reader.module(functions)?;
    match reader.place == sheet.len() {
        true => Ok(module),
        false => refuse(number::AFTER, reader.place),
    }
}

/// The sheet's bytes together with the next place in them.
struct Reader<'a> {
    sheet: &'a [u8],
    place: usize,
}

/// What an expression or a statement may name.
struct Scope<'a> {
    inputs: u8,
    registers: u8,
    widths: &'a [u8],
    /// How many functions the sheet has.
    declared: u8,
    /// Those that may be called here.
    functions: &'a [Function],
    /// Whether this is a function's body.
    body: bool,
}

impl Scope<'_> {
    fn has(&self, variable: Variable) -> bool {
        usize::from(variable) < self.widths.len()
    }

    fn width(&self, variable: Variable) -> u8 {
        self.widths[usize::from(variable)]
    }

    fn is_register(&self, variable: Variable) -> bool {
        (self.inputs..self.inputs + self.registers).contains(&variable)
    }
}

impl Reader<'_> {
    fn byte(&mut self) -> Reading<u8> {
        let Some(&byte) = self.sheet.get(self.place) else {
            return refuse(number::END, self.sheet.len());
        };
        self.place += 1;
        Ok(byte)
    }

    /// The next byte, refused with the number where it isn't good.
    fn judged(&mut self, number: u8, good: impl Fn(u8) -> bool) -> Reading<u8> {
        let place = self.place;
        let byte = self.byte()?;
        match good(byte) {
            true => Ok(byte),
            false => refuse(number, place),
        }
    }

    /// The map that opens a node. One past the depth is 7 whatever it is.
    fn map(&mut self, depth: usize, most: usize) -> Reading<u8> {
        self.judged(number::DEPTH, |_| depth <= most)
    }

    // ---- module

    fn module(&mut self, functions: bool) -> Reading<Module> {
        let (inputs, with) = self.inputs(functions)?;
        let registers = self.count(1, MOST_REGISTERS)?;
        let wires = self.count(0, MOST_WIRES)?;
        let threads = self.count(1, MOST_THREADS)?;
        let declared = if with { self.count(1, MOST_FUNCTIONS)? } else { 0 };
        let widths = self.widths(inputs + registers + wires)?;
        let functions = self.functions(declared)?;
        let (body, functions) = (false, &functions[..]);
        let scope = Scope { inputs, registers, widths: &widths, declared, functions, body };
        let first_wire = inputs + registers;
        let wires = (first_wire..first_wire + wires)
            .map(|variable| self.wire(&scope, variable))
            .collect::<Reading<Vec<Expr>>>()?;
        let threads =
            (0..threads).map(|_| self.thread(&scope)).collect::<Reading<Vec<Stmt>>>()?;
        let functions = functions.to_vec();
        Ok(Module { inputs, registers, widths, functions, wires, threads })
    }

    /// How many inputs there are, and whether the sheet has functions.
    fn inputs(&mut self, functions: bool) -> Reading<(u8, bool)> {
        let split = |byte: u8| match functions && byte >= WITH_FUNCTIONS {
            true => (byte - WITH_FUNCTIONS, true),
            false => (byte, false),
        };
        let good = |byte| (1..=MOST_INPUTS).contains(&split(byte).0);
        Ok(split(self.judged(number::COUNT, good)?))
    }

    fn count(&mut self, least: u8, most: u8) -> Reading<u8> {
        self.judged(number::COUNT, |n| (least..=most).contains(&n))
    }

    /// One width for each variable; the clock's is 1.
    fn widths(&mut self, variables: u8) -> Reading<Vec<u8>> {
        (0..variables)
            .map(|variable| {
                let most = if variable == 0 { 1 } else { MOST_WIDTH };
                self.judged(number::WIDTH, |w| (1..=most).contains(&w))
            })
            .collect()
    }

    // ---- functions

    /// One after the other, each whole; a body may call those before it.
    fn functions(&mut self, declared: u8) -> Reading<Vec<Function>> {
        let mut functions = Vec::new();
        for _ in 0..declared {
            let function = self.function(declared, &functions)?;
            functions.push(function);
        }
        Ok(functions)
    }

    fn function(&mut self, declared: u8, functions: &[Function]) -> Reading<Function> {
        let inputs = self.count(1, MOST_PARAMETERS)?;
        let widths = (0..=inputs)
            .map(|_| self.judged(number::WIDTH, |w| (1..=MOST_WIDTH).contains(&w)))
            .collect::<Reading<Vec<u8>>>()?;
        let (registers, body) = (1, true);
        let scope = Scope { inputs, registers, widths: &widths, declared, functions, body };
        let body = self.stmt(&scope, 1)?;
        let (&result, parameters) = widths.split_last().expect("the result's");
        Ok(Function { parameters: parameters.to_vec(), result, body })
    }

    // ---- wires and threads

    fn wire(&mut self, scope: &Scope, variable: Variable) -> Reading<Expr> {
        let start = self.place;
        let (expr, width) = self.expr(scope, 1)?;
        self.agree(width == scope.width(variable), start)?;
        Ok(expr)
    }

    fn thread(&mut self, scope: &Scope) -> Reading<Stmt> {
        let start = self.place;
        let statement = self.stmt(scope, 1)?;
        match thread_size(&statement) <= MOST_INSTRUCTIONS {
            true => Ok(statement),
            false => refuse(number::THREAD, start),
        }
    }

    /// Widths that disagree are refused at the node's map.
    fn agree(&self, equal: bool, map: usize) -> Reading<()> {
        match equal {
            true => Ok(()),
            false => refuse(number::DISAGREE, map),
        }
    }

    // ---- expressions

    /// An expression and its width.
    fn expr(&mut self, scope: &Scope, depth: usize) -> Reading<(Expr, u8)> {
        let start = self.place;
        match self.map(depth, EXPR_DEPTH)? {
            0x02 => {
                let variable = self.variable(scope)?;
                Ok((Expr::Variable(variable), scope.width(variable)))
            }
            0x0C => self.constant(),
            0x04 => {
                let width = self.constant_width()?;
                Ok((Expr::Unknown { width }, width))
            }
            0x11 => self.operation(scope, depth, start, 1),
            0x31 => self.operation(scope, depth, start, 2),
            0x71 => self.operation(scope, depth, start, 3),
            0x80 if scope.declared > 0 => self.call(scope, depth, start),
            _ => refuse(number::MAP, start),
        }
    }

    fn variable(&mut self, scope: &Scope) -> Reading<Variable> {
        self.judged(number::FIELD, |v| scope.has(v))
    }

    fn constant_width(&mut self) -> Reading<u8> {
        self.judged(number::FIELD, |w| (1..=MOST_WIDTH).contains(&w))
    }

    /// All four bytes of the value are read before it is judged.
    fn constant(&mut self) -> Reading<(Expr, u8)> {
        let width = self.constant_width()?;
        let start = self.place;
        let bytes = [self.byte()?, self.byte()?, self.byte()?, self.byte()?];
        let value = u32::from_le_bytes(bytes);
        match u64::from(value) < 1 << width {
            true => Ok((Expr::Constant { width, value }, width)),
            false => refuse(number::FIELD, start),
        }
    }

    fn operation(
        &mut self,
        scope: &Scope,
        depth: usize,
        start: usize,
        arity: usize,
    ) -> Reading<(Expr, u8)> {
        let byte = self.judged(number::FIELD, |b| Operator::find(b, arity).is_some())?;
        let operator = Operator::find(byte, arity).expect("judged");
        let mut operands = Vec::new();
        let mut widths = Vec::new();
        for _ in 0..arity {
            let (operand, width) = self.expr(scope, depth + 1)?;
            operands.push(operand);
            widths.push(width);
        }
        let Some(width) = result_width(operator, &widths) else {
            return refuse(number::DISAGREE, start);
        };
        Ok((Expr::Operation(operator, operands), width))
    }

    /// A number that no function has is 6, one that may not be called here 44. The arguments are
    /// operands; their widths are judged behind the last of them.
    fn call(&mut self, scope: &Scope, depth: usize, start: usize) -> Reading<(Expr, u8)> {
        let place = self.place;
        let number = self.judged(number::FIELD, |n| n < scope.declared)?;
        let Some(function) = scope.functions.get(usize::from(number)) else {
            return refuse(number::LATER_FUNCTION, place);
        };
        let mut arguments = Vec::new();
        let mut widths = Vec::new();
        for _ in &function.parameters {
            let (argument, width) = self.expr(scope, depth + 1)?;
            arguments.push(argument);
            widths.push(width);
        }
        self.agree(widths == function.parameters, start)?;
        Ok((Expr::Call(number, arguments), function.result))
    }

    // ---- statements

    fn stmt(&mut self, scope: &Scope, depth: usize) -> Reading<Stmt> {
        let start = self.place;
        match self.map(depth, STMT_DEPTH)? {
            0x23 | 0x46 | 0x44 | 0x10 if scope.body => refuse(number::BODY, start),
            0x00 => Ok(Stmt::Empty),
            0x03 => {
                let (target, value) = self.assignment(scope, start)?;
                Ok(Stmt::Set(target, value))
            }
            0x23 => {
                let (target, value) = self.assignment(scope, start)?;
                Ok(Stmt::Later(target, value))
            }
            0x0C => Ok(Stmt::Sequence(self.body(scope, depth)?, self.body(scope, depth)?)),
            0x06 => Ok(Stmt::If(self.condition(scope)?, self.body(scope, depth)?)),
            0x0E => Ok(Stmt::IfElse(
                self.condition(scope)?,
                self.body(scope, depth)?,
                self.body(scope, depth)?,
            )),
            0x46 => Ok(Stmt::While(self.condition(scope)?, self.body(scope, depth)?)),
            0x44 => Ok(Stmt::Forever(self.body(scope, depth)?)),
            0x10 => Ok(Stmt::Wait(self.wait(scope, start)?)),
            _ => refuse(number::MAP, start),
        }
    }

    fn body(&mut self, scope: &Scope, depth: usize) -> Reading<Box<Stmt>> {
        Ok(Box::new(self.stmt(scope, depth + 1)?))
    }

    /// A condition may have any width.
    fn condition(&mut self, scope: &Scope) -> Reading<Expr> {
        Ok(self.expr(scope, 1)?.0)
    }

    /// The target is judged before its expression is read, their widths after.
    fn assignment(&mut self, scope: &Scope, start: usize) -> Reading<(Variable, Expr)> {
        let target = self.judged(number::TARGET, |v| scope.is_register(v))?;
        let (value, width) = self.expr(scope, 1)?;
        self.agree(width == scope.width(target), start)?;
        Ok((target, value))
    }

    /// All terms are read, then their widths judged.
    fn wait(&mut self, scope: &Scope, start: usize) -> Reading<Vec<Term>> {
        let count = self.judged(number::FIELD, |n| (1..=MOST_TERMS).contains(&n))?;
        let terms = (0..count).map(|_| self.term(scope)).collect::<Reading<Vec<Term>>>()?;
        let fits = |term: &Term| term.edge == Edge::Any || scope.width(term.variable) == 1;
        self.agree(terms.iter().all(fits), start)?;
        Ok(terms)
    }

    fn term(&mut self, scope: &Scope) -> Reading<Term> {
        let byte = self.judged(number::FIELD, |b| Edge::find(b).is_some())?;
        let edge = Edge::find(byte).expect("judged");
        Ok(Term { edge, variable: self.variable(scope)? })
    }
}

/// The width of an operator's result, none where its operands' widths disagree.
pub fn result_width(operator: Operator, widths: &[u8]) -> Option<u8> {
    match (operator, widths) {
        (Operator::Invert, &[a]) => Some(a),
        (Operator::Not, &[_]) => Some(1),
        (Operator::Equal | Operator::Less, &[a, b]) => (a == b).then_some(1),
        (Operator::Conditional, &[_, a, b]) => (a == b).then_some(a),
        (_, &[a, b]) => (a == b).then_some(a),
        _ => None,
    }
}
