//! Expressions that read only what they may.

use super::{Generator, Part};
use crate::extraction::text::Way;
use crate::functions;
use crate::generate::{operand_widths, operator};
use crate::module::{Expr, Variable};
use crate::sheet::EXPR_DEPTH;
use crate::value::mask;

impl Generator<'_> {
    pub(super) fn wire(&mut self, variable: Variable) -> Expr {
        self.expr(self.width(variable), Part::Wire(variable))
    }

    pub(super) fn condition(&mut self, thread: usize) -> Expr {
        let width = self.random.pick(&self.widths);
        self.expr(width, Part::Thread(thread))
    }

    pub(super) fn expr(&mut self, width: u8, part: Part) -> Expr {
        let nodes = self.random.between(1, self.nodes);
        self.expr_of(width, nodes, EXPR_DEPTH, part)
    }

    /// An expression of the width with about so many nodes, at most so deep.
    fn expr_of(&mut self, width: u8, nodes: usize, depth: usize, part: Part) -> Expr {
        if nodes <= 1 || depth == 1 {
            return self.leaf(width, part);
        }
        if let Some(number) = functions::pick(&self.functions, width, self.random) {
            let widths = self.functions[usize::from(number)].parameters.clone();
            return Expr::Call(number, self.parts(&widths, nodes, depth, part));
        }
        let operator = operator(width, self.random);
        let other = self.random.pick(&self.widths);
        let widths = operand_widths(operator, width, other);
        Expr::Operation(operator, self.parts(&widths, nodes, depth, part))
    }

    fn parts(&mut self, widths: &[u8], nodes: usize, depth: usize, part: Part) -> Vec<Expr> {
        let mut rest = nodes - 1;
        let mut parts = Vec::new();
        for (index, &width) in widths.iter().enumerate() {
            let last = index + 1 == widths.len();
            let share = if last { rest } else { self.random.between(0, rest) };
            rest -= share;
            parts.push(self.expr_of(width, share, depth - 1, part));
        }
        parts
    }

    fn leaf(&mut self, width: u8, part: Part) -> Expr {
        let variables: Vec<Variable> = (1..self.widths.len() as u8)
            .filter(|&v| self.width(v) == width && self.may_read(part, v))
            .collect();
        match self.random.below(32) {
            0 => Expr::Unknown { width },
            1..=25 if !variables.is_empty() => Expr::Variable(self.random.pick(&variables)),
            _ => self.constant(width),
        }
    }

    /// Small numbers and the greatest one more often than others.
    pub(super) fn constant(&mut self, width: u8) -> Expr {
        let number = match self.random.below(4) {
            0 => u32::MAX,
            1 => self.random.number() as u32,
            _ => self.random.below(3) as u32,
        };
        Expr::Constant { width, value: number & mask(width) }
    }

    /// Wires read lower ones only, and nobody reads what another thread writes by plain
    /// assignment.
    fn may_read(&self, part: Part, variable: Variable) -> bool {
        let (lower, reader) = match part {
            Part::Wire(wire) => (variable < wire, None),
            Part::Thread(thread) => (true, Some(thread)),
        };
        let register = variable.checked_sub(self.inputs).map(usize::from);
        let private = match register.and_then(|register| self.writers.get(register)) {
            Some((Some(writer), Way::Plain)) => reader != Some(*writer),
            _ => false,
        };
        lower && !private
    }
}
