//! Extractable modules as Verilog text.
//!
//! Inputs are i0 (the clock) and up, registers r0 and up, wires w0 and up. A thread is an `always`
//! of its statement. Operands have the widths that a sheet's rules ask for, so that Verilog's
//! rules on the sizes of expressions add nothing. The text has only forms that the text reader
//! takes, and its blocks stand as they are read back.
//!
//! Functions are f0 and up, each a `function automatic`, so that its result is unknown at each call;
//! its parameters are p0 and up, its result has its name. The text reader doesn't take them.

use std::fmt::{self, Display, Formatter, Write};

use crate::module::{Edge, Expr, Function, Module, Operator, Stmt, Term, Variable};

/// The name of the module.
pub const NAME: &str = "walbryts";

/// The module, with its inputs as ports.
pub fn text(module: &Module) -> String {
    let mut printer = Printer { scope: Scope::Module(module), text: String::new() };
    printer.module(module).expect("text takes all that is written");
    printer.text
}

struct Printer<'a> {
    scope: Scope<'a>,
    text: String,
}

/// What variables are named by.
#[derive(Clone, Copy)]
enum Scope<'a> {
    Module(&'a Module),
    /// A body, by the function's number.
    Body(usize, &'a Function),
}

/// A variable by its name.
struct Name<'a>(Scope<'a>, Variable);

/// An expression in infix form, each operation in brackets.
struct Infix<'a>(Scope<'a>, &'a Expr);

impl Display for Name<'_> {
    fn fmt(&self, f: &mut Formatter) -> fmt::Result {
        let Module { inputs, registers, .. } = match self.0 {
            Scope::Body(number, function) if self.1 == function.target() => {
                return write!(f, "f{number}");
            }
            Scope::Body(..) => return write!(f, "p{}", self.1),
            Scope::Module(module) => module,
        };
        let (letter, first) = match self.1 {
            v if v < *inputs => ('i', 0),
            v if v < inputs + registers => ('r', *inputs),
            _ => ('w', inputs + registers),
        };
        write!(f, "{letter}{}", self.1 - first)
    }
}

impl Display for Infix<'_> {
    fn fmt(&self, f: &mut Formatter) -> fmt::Result {
        let Infix(scope, e) = self;
        let part = |operand| Infix(*scope, operand);
        match e {
            Expr::Variable(variable) => Name(*scope, *variable).fmt(f),
            Expr::Constant { width, value } => write!(f, "{width}'d{value}"),
            Expr::Unknown { width } => write!(f, "{width}'bx"),
            Expr::Operation(operator, operands) => match &operands[..] {
                [a] => write!(f, "({}{})", sign(*operator), part(a)),
                [a, b] => write!(f, "({} {} {})", part(a), sign(*operator), part(b)),
                [c, a, b] => write!(f, "({} ? {} : {})", part(c), part(a), part(b)),
                _ => unreachable!("an operator has one to three operands"),
            },
            Expr::Call(number, arguments) => {
                let arguments: Vec<String> =
                    arguments.iter().map(|argument| part(argument).to_string()).collect();
                write!(f, "f{number}({})", arguments.join(", "))
            }
        }
    }
}

/// None of a single bit.
fn range(width: u8) -> String {
    match width {
        1 => String::new(),
        width => format!("[{}:0] ", width - 1),
    }
}

fn sign(operator: Operator) -> &'static str {
    match operator {
        Operator::Invert => "~",
        Operator::Not => "!",
        Operator::And => "&",
        Operator::Or => "|",
        Operator::Xor => "^",
        Operator::Add => "+",
        Operator::Subtract => "-",
        Operator::Equal => "==",
        Operator::Less => "<",
        Operator::Conditional => "?",
    }
}

impl<'a> Printer<'a> {
    fn name(&self, variable: Variable) -> Name<'a> {
        Name(self.scope, variable)
    }

    fn infix(&self, e: &'a Expr) -> Infix<'a> {
        Infix(self.scope, e)
    }

    fn module(&mut self, module: &'a Module) -> fmt::Result {
        let first_wire = module.inputs + module.registers;
        let variables = first_wire + module.wires.len() as u8;
        let ports: Vec<String> = (0..module.inputs).map(|v| self.name(v).to_string()).collect();
        writeln!(self.text, "module {NAME} ({});", ports.join(", "))?;
        for v in 0..variables {
            let kind = match v {
                _ if v < module.inputs => "input",
                _ if v < first_wire => "reg",
                _ => "wire",
            };
            let range = range(module.widths[usize::from(v)]);
            writeln!(self.text, "  {kind} {range}{};", self.name(v))?;
        }
        for (number, function) in module.functions.iter().enumerate() {
            self.scope = Scope::Body(number, function);
            self.function(function)?;
        }
        self.scope = Scope::Module(module);
        for (v, wire) in (first_wire..).zip(&module.wires) {
            writeln!(self.text, "  assign {} = {};", self.name(v), self.infix(wire))?;
        }
        for thread in &module.threads {
            self.thread(thread)?;
        }
        writeln!(self.text, "endmodule")
    }

    /// The result's width, the parameters, and the body in a block.
    fn function(&mut self, function: &'a Function) -> fmt::Result {
        let name = self.name(function.target());
        writeln!(self.text, "  function automatic {}{name};", range(function.result))?;
        for (v, &width) in (0..).zip(&function.parameters) {
            writeln!(self.text, "    input {}{};", range(width), self.name(v))?;
        }
        self.line(2, "begin")?;
        self.stmt(&function.body, 3)?;
        self.line(2, "end")?;
        self.line(1, "endfunction")
    }

    /// A thread's statement in a block, or in one behind the wait that it opens with.
    fn thread(&mut self, thread: &'a Stmt) -> fmt::Result {
        if let Stmt::Sequence(first, second) = thread
            && let Stmt::Wait(terms) = first.as_ref()
        {
            return self.block(format!("always @({})", self.terms(terms)), second, 1);
        }
        self.block("always".into(), thread, 1)
    }

    fn line(&mut self, depth: usize, line: impl Display) -> fmt::Result {
        writeln!(self.text, "{:1$}{line}", "", 2 * depth)
    }

    /// A statement in a block of its own.
    fn block(&mut self, opening: String, s: &'a Stmt, depth: usize) -> fmt::Result {
        self.line(depth, format_args!("{opening} begin"))?;
        self.stmt(s, depth + 1)?;
        self.line(depth, "end")
    }

    fn stmt(&mut self, s: &'a Stmt, depth: usize) -> fmt::Result {
        match s {
            Stmt::Empty => self.line(depth, "begin end"),
            Stmt::Set(target, value) => {
                let (target, value) = (self.name(*target), self.infix(value));
                self.line(depth, format_args!("{target} = {value};"))
            }
            Stmt::Later(target, value) => {
                let (target, value) = (self.name(*target), self.infix(value));
                self.line(depth, format_args!("{target} <= {value};"))
            }
            Stmt::Sequence(first, second) => self.sequence(first, second, depth),
            Stmt::If(condition, body) => {
                self.block(format!("if ({})", self.infix(condition)), body, depth)
            }
            Stmt::IfElse(condition, first, second) => {
                self.line(depth, format_args!("if ({}) begin", self.infix(condition)))?;
                self.stmt(first, depth + 1)?;
                self.block("end else".into(), second, depth)
            }
            Stmt::While(condition, body) => {
                self.block(format!("while ({})", self.infix(condition)), body, depth)
            }
            Stmt::Forever(body) => self.block("forever".into(), body, depth),
            Stmt::Wait(terms) => self.line(depth, format_args!("@({});", self.terms(terms))),
        }
    }

    /// What follows a wait stands in its block, and a sequence in front in a block of its own.
    fn sequence(&mut self, first: &'a Stmt, second: &'a Stmt, depth: usize) -> fmt::Result {
        match first {
            Stmt::Wait(terms) => {
                return self.block(format!("@({})", self.terms(terms)), second, depth);
            }
            Stmt::Sequence(..) => {
                self.line(depth, "begin")?;
                self.stmt(first, depth + 1)?;
                self.line(depth, "end")?;
            }
            _ => self.stmt(first, depth)?,
        }
        self.stmt(second, depth)
    }

    fn terms(&self, terms: &[Term]) -> String {
        let terms: Vec<String> = terms.iter().map(|term| self.term(term)).collect();
        terms.join(" or ")
    }

    fn term(&self, term: &Term) -> String {
        let name = self.name(term.variable);
        match term.edge {
            Edge::Any => name.to_string(),
            Edge::Posedge => format!("posedge {name}"),
            Edge::Negedge => format!("negedge {name}"),
        }
    }
}
