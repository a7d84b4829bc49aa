//! The values of a module's variables, with wires that settle and nodes worked out.

use crate::extraction::{Id, Node};
use crate::module::{Function, Module, Variable};
use crate::sheet::result_width;
use crate::value::{Scope, Value, apply, evaluate};

#[derive(Clone, Debug, PartialEq, Eq)]
pub struct Values<'a> {
    module: &'a Module,
    /// By variable.
    values: Vec<Value>,
}

impl<'a> Values<'a> {
    /// All x, each in its variable's bits.
    pub fn unknown(module: &'a Module) -> Values<'a> {
        Values { module, values: module.widths.iter().map(|&width| Value::x(width)).collect() }
    }

    pub fn set(&mut self, variable: Variable, value: Value) {
        self.values[usize::from(variable)] = value;
    }

    pub fn get(&self, variable: Variable) -> Value {
        self.values[usize::from(variable)]
    }

    /// Sets the wires from 0 up, each to its expression's value.
    pub fn settle(&mut self) {
        let first = self.module.inputs + self.module.registers;
        for (wire, e) in (first..).zip(&self.module.wires) {
            let value = evaluate(e, self);
            self.set(wire, value);
        }
    }

    /// The value of each node; operands stand before the nodes that take them.
    pub fn of_nodes(&self, nodes: &[Node]) -> Vec<Value> {
        let mut known: Vec<(Value, u8)> = Vec::with_capacity(nodes.len());
        for &node in nodes {
            let next = self.of_node(node, |id| known[usize::from(id)]);
            known.push(next);
        }
        known.into_iter().map(|(value, _)| value).collect()
    }

    /// A node's value and width, by those of earlier nodes.
    fn of_node(&self, node: Node, earlier: impl Fn(Id) -> (Value, u8)) -> (Value, u8) {
        match node {
            Node::Variable(variable) => (self.value(variable), self.width(variable)),
            Node::Constant { width, value } => (Value::known(value), width),
            Node::Unknown { width } => (Value::x(width), width),
            Node::Operation(operator, ids) => {
                let operands = ids.map(&earlier);
                let arity = operator.arity();
                let (values, widths) = (operands.map(|o| o.0), operands.map(|o| o.1));
                let width = result_width(operator, &widths[..arity]).expect("equal widths");
                (apply(operator, widths[0], &values[..arity]), width)
            }
            Node::Branch { condition, held, other } => match earlier(condition).0.holds() {
                true => earlier(held),
                false => earlier(other),
            },
        }
    }
}

impl Scope for Values<'_> {
    fn width(&self, variable: Variable) -> u8 {
        self.module.widths[usize::from(variable)]
    }

    fn value(&self, variable: Variable) -> Value {
        self.get(variable)
    }

    fn functions(&self) -> &[Function] {
        &self.module.functions
    }
}
