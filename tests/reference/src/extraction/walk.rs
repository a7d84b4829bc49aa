//! The walks from wait to wait, and those of functions' bodies.

use super::text::{Thread, Way};
use super::{Extraction, Id, MOST_NODES, Node, REGISTERS, Row};
use crate::module::{Expr, Module, Variable};
use crate::pseudocode::{Instruction, translate, translate_thread};

/// A walk from every wait, by thread and place; none where there are too many nodes.
pub fn walks(module: &Module) -> Option<Extraction> {
    let mut nodes: Vec<Node> = (0..module.widths.len() as u8).map(Node::Variable).collect();
    let mut rows = Vec::new();
    let threads = Thread::all(module);
    for (number, thread) in threads.iter().enumerate() {
        let code = translate_thread(&module.threads[number]);
        let mut walker = Walker { module, thread, code, nodes };
        for &wait in &thread.waits {
            let end = walker.walk(usize::from(wait) + 1, Held::at_first(module))?;
            let End { registers, place } = end;
            rows.push(Row { thread: number, wait, registers, place });
        }
        nodes = walker.nodes;
    }
    Some(Extraction { threads, nodes, rows })
}

/// The current and the later value of each register.
#[derive(Clone, Copy)]
struct Held {
    current: [Id; REGISTERS],
    later: [Id; REGISTERS],
}

impl Held {
    /// Each register's own variable, in both rows.
    fn at_first(module: &Module) -> Held {
        let mut own = [0; REGISTERS];
        for register in 0..module.registers {
            own[usize::from(register)] = Id::from(module.inputs + register);
        }
        Held { current: own, later: own }
    }

    /// The node that a variable stands for.
    fn nodes<'h>(&'h self, module: &'h Module) -> impl Fn(Variable) -> Id + 'h {
        let register = |variable: Variable| variable.checked_sub(module.inputs);
        move |variable| match register(variable) {
            Some(register) if register < module.registers => {
                self.current[usize::from(register)]
            }
            _ => Id::from(variable),
        }
    }
}

/// What a walk, or a leg of it, comes to.
struct End {
    registers: [Id; REGISTERS],
    place: Id,
}

struct Walker<'a> {
    module: &'a Module,
    thread: &'a Thread,
    code: Vec<Instruction<'a>>,
    nodes: Vec<Node>,
}

impl Walker<'_> {
    /// None where there is no room left.
    fn add(&mut self, node: Node) -> Option<Id> {
        let id = self.nodes.len();
        (id < MOST_NODES).then(|| self.nodes.push(node))?;
        Some(id as Id)
    }

    fn walk(&mut self, mut place: usize, mut held: Held) -> Option<End> {
        loop {
            match self.code[place] {
                Instruction::Wait(_) => return self.arrive(place, &held),
                Instruction::Set(target, value) => {
                    let value = self.expression(value, &held.nodes(self.module))?;
                    held.current[self.register(target)] = value;
                    place += 1;
                }
                Instruction::Later(target, value) => {
                    let value = self.expression(value, &held.nodes(self.module))?;
                    held.later[self.register(target)] = value;
                    place += 1;
                }
                Instruction::Go(goal) => place = goal,
                Instruction::IfNot(condition, goal) => {
                    let condition = self.expression(condition, &held.nodes(self.module))?;
                    let first = self.walk(place + 1, held)?;
                    let second = self.walk(goal, held)?;
                    return self.join(condition, first, second);
                }
            }
        }
    }

    fn register(&self, target: Variable) -> usize {
        usize::from(target - self.module.inputs)
    }

    /// At a wait: its place, and each register's value in the row that it is written in.
    fn arrive(&mut self, place: usize, held: &Held) -> Option<End> {
        let mut registers = held.current;
        for register in self.thread.registers() {
            if self.thread.written[register] == Some(Way::Later) {
                registers[register] = held.later[register];
            }
        }
        let place = self.add(Node::Constant { width: 8, value: place as u32 })?;
        Some(End { registers, place })
    }

    /// A branch for each register that the thread writes, then one for the place.
    fn join(&mut self, condition: Id, first: End, second: End) -> Option<End> {
        let mut end = first;
        for register in self.thread.registers() {
            let (held, other) = (end.registers[register], second.registers[register]);
            end.registers[register] = self.add(Node::Branch { condition, held, other })?;
        }
        let (held, other) = (end.place, second.place);
        end.place = self.add(Node::Branch { condition, held, other })?;
        Some(end)
    }

    /// Operands first, left first; a variable takes the node held.
    fn expression(&mut self, e: &Expr, held: &dyn Fn(Variable) -> Id) -> Option<Id> {
        match e {
            Expr::Variable(variable) => Some(held(*variable)),
            Expr::Constant { width, value } => {
                self.add(Node::Constant { width: *width, value: *value })
            }
            Expr::Unknown { width } => self.add(Node::Unknown { width: *width }),
            Expr::Operation(operator, operands) => {
                let mut ids = [0; 3];
                for (id, operand) in ids.iter_mut().zip(operands) {
                    *id = self.expression(operand, held)?;
                }
                self.add(Node::Operation(*operator, ids))
            }
            Expr::Call(number, arguments) => {
                let arguments: Option<Vec<Id>> =
                    arguments.iter().map(|argument| self.expression(argument, held)).collect();
                let arguments = arguments?;
                let function = &self.module.functions[usize::from(*number)];
                let result = self.add(Node::Unknown { width: function.result })?;
                self.body(&translate(&function.body), 0, &arguments, result)
            }
        }
    }

    /// The walk of a body from a place to its end, both legs of an `ifnot` likewise, and then one
    /// branch node, for the result.
    fn body(
        &mut self,
        code: &[Instruction],
        mut place: usize,
        arguments: &[Id],
        mut result: Id,
    ) -> Option<Id> {
        while let Some(&instruction) = code.get(place) {
            let held = |v: Variable| *arguments.get(usize::from(v)).unwrap_or(&result);
            match instruction {
                Instruction::Set(_, value) => {
                    result = self.expression(value, &held)?;
                    place += 1;
                }
                Instruction::Go(goal) => place = goal,
                Instruction::IfNot(condition, goal) => {
                    let condition = self.expression(condition, &held)?;
                    let held = self.body(code, place + 1, arguments, result)?;
                    let other = self.body(code, goal, arguments, result)?;
                    return self.add(Node::Branch { condition, held, other });
                }
                Instruction::Wait(_) | Instruction::Later(..) => {
                    unreachable!("a body has no wait and no later assignment")
                }
            }
        }
        Some(result)
    }
}
