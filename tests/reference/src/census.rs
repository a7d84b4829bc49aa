//! Counts of the forms that modules hold.

use std::fmt::{self, Display, Formatter};

use crate::encode::{encode, expr_map, stmt_map};
use crate::module::{Edge, Expr, Module, Operator, Stmt};
use crate::pseudocode::thread_size;
use crate::sheet::FUNCTIONS;

const EXPR_MAPS: [u8; 7] = [0x02, 0x0C, 0x04, 0x11, 0x31, 0x71, 0x80];
const STMT_MAPS: [u8; 9] = [0x00, 0x03, 0x23, 0x0C, 0x06, 0x0E, 0x46, 0x44, 0x10];

#[derive(Default)]
pub struct Census {
    expr_maps: Counts<129>,
    operators: Counts<11>,
    stmt_maps: Counts<128>,
    edges: Counts<3>,
    wait_counts: Counts<9>,
    modules: u64,
    /// By the number of parameters.
    functions: Counts<5>,
    deepest_expr: usize,
    deepest_stmt: usize,
    longest_thread: usize,
    longest_sheet: usize,
}

struct Counts<const N: usize>([u64; N]);

impl<const N: usize> Default for Counts<N> {
    fn default() -> Self {
        Counts([0; N])
    }
}

impl<const N: usize> Counts<N> {
    fn add(&mut self, form: u8) {
        self.0[usize::from(form)] += 1;
    }
}

impl Census {
    pub fn add(&mut self, module: &Module) {
        self.modules += 1;
        self.longest_sheet = self.longest_sheet.max(encode(module).len());
        for function in &module.functions {
            self.functions.add(function.target());
            self.stmt(&function.body, 1);
        }
        module.wires.iter().for_each(|wire| self.expr(wire, 1));
        for thread in &module.threads {
            self.longest_thread = self.longest_thread.max(thread_size(thread));
            self.stmt(thread, 1);
        }
    }

    fn expr(&mut self, e: &Expr, depth: usize) {
        self.deepest_expr = self.deepest_expr.max(depth);
        self.expr_maps.add(expr_map(e));
        match e {
            Expr::Operation(operator, operands) => {
                self.operators.add(operator.number());
                operands.iter().for_each(|operand| self.expr(operand, depth + 1));
            }
            Expr::Call(_, arguments) => {
                arguments.iter().for_each(|argument| self.expr(argument, depth + 1));
            }
            _ => {}
        }
    }

    fn stmt(&mut self, s: &Stmt, depth: usize) {
        self.deepest_stmt = self.deepest_stmt.max(depth);
        self.stmt_maps.add(stmt_map(s));
        match s {
            Stmt::Empty => {}
            Stmt::Set(_, value) | Stmt::Later(_, value) => self.expr(value, 1),
            Stmt::Sequence(a, b) => {
                self.stmt(a, depth + 1);
                self.stmt(b, depth + 1);
            }
            Stmt::If(e, a) | Stmt::While(e, a) => {
                self.expr(e, 1);
                self.stmt(a, depth + 1);
            }
            Stmt::IfElse(e, a, b) => {
                self.expr(e, 1);
                self.stmt(a, depth + 1);
                self.stmt(b, depth + 1);
            }
            Stmt::Forever(a) => self.stmt(a, depth + 1),
            Stmt::Wait(terms) => {
                self.wait_counts.add(terms.len() as u8);
                terms.iter().for_each(|term| self.edges.add(term.edge.number()));
            }
        }
    }

    /// Each form with how often it was met. Calls and functions are left out where no module had
    /// one and sheets with functions aren't read.
    pub fn rows(&self) -> Vec<(String, u64)> {
        let with = FUNCTIONS || self.functions.0 != [0; 5];
        let maps = EXPR_MAPS.into_iter().filter(|&map| with || map != 0x80);
        let expr =
            maps.map(|m| (format!("expression map {m:02x}h"), self.expr_maps.0[m as usize]));
        let parameters =
            (1..=4).filter(|_| with).map(|n| (format!("function of {n}"), self.functions.0[n]));
        let operators = Operator::ALL
            .map(|o| (format!("operator {}", o.number()), self.operators.0[o as usize]));
        let stmt = STMT_MAPS
            .map(|m| (format!("statement map {m:02x}h"), self.stmt_maps.0[m as usize]));
        let edges =
            Edge::ALL.map(|e| (format!("edge {}", e.number()), self.edges.0[e as usize]));
        let waits = (1..=8).map(|n| (format!("wait of {n}"), self.wait_counts.0[n]));
        let forms = expr.chain(operators).chain(stmt).chain(edges).chain(waits);
        forms.chain(parameters).collect()
    }

    /// The forms never met.
    pub fn missing(&self) -> Vec<String> {
        self.rows().into_iter().filter(|row| row.1 == 0).map(|row| row.0).collect()
    }
}

impl Display for Census {
    fn fmt(&self, f: &mut Formatter) -> fmt::Result {
        for (form, count) in self.rows() {
            writeln!(f, "  {form:<20}{count:>10}")?;
        }
        writeln!(f, "  {:<20}{:>10}", "modules", self.modules)?;
        writeln!(f, "  {:<20}{:>10}", "deepest expression", self.deepest_expr)?;
        writeln!(f, "  {:<20}{:>10}", "deepest statement", self.deepest_stmt)?;
        writeln!(f, "  {:<20}{:>10}", "longest thread", self.longest_thread)?;
        write!(f, "  {:<20}{:>10}", "longest sheet", self.longest_sheet)
    }
}
