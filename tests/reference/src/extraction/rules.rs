//! The numbers 12 to 20, judged on the text.

use super::{MOST_WAITS, number, text};
use crate::machine::variables;
use crate::module::{Edge, Module, Stmt, Term, Variable};
use text::Way;

/// The lowest number that stands.
pub fn broken(module: &Module) -> Option<u8> {
    let text = Text::of(module);
    let rules = [
        (number::TWO_WRITERS, text.two_writers()),
        (number::BOTH_WAYS, text.both_ways()),
        (number::PLAIN_READ, text.plain_read()),
        (number::OTHER_WAIT, text.other_wait()),
        (number::NO_FIRST_WAIT, !module.threads.iter().all(starts_with_wait)),
        (number::NO_SURE_WAIT, !module.threads.iter().all(waits_everywhere)),
        (number::CLOCK_READ, text.clock_read()),
        (number::WIRE_ORDER, text.wire_order()),
        (number::WAITS, text.waits.len() > MOST_WAITS),
    ];
    rules.into_iter().find(|rule| rule.1).map(|rule| rule.0)
}

/// The parts of a module that the rules speak of.
struct Text<'a> {
    first_wire: Variable,
    /// By thread.
    writes: Vec<Vec<(Variable, Way)>>,
    /// By thread.
    reads: Vec<Vec<Variable>>,
    /// By wire.
    wires: Vec<Vec<Variable>>,
    waits: Vec<&'a [Term]>,
}

impl<'a> Text<'a> {
    fn of(module: &'a Module) -> Text<'a> {
        Text {
            first_wire: module.inputs + module.registers,
            writes: module.threads.iter().map(text::writes).collect(),
            reads: module.threads.iter().map(text::reads).collect(),
            wires: module.wires.iter().map(variables).collect(),
            waits: module.threads.iter().flat_map(text::waits).collect(),
        }
    }

    /// 12: two threads write one register.
    fn two_writers(&self) -> bool {
        let other = |thread: usize, register: Variable| {
            self.writes[..thread].iter().flatten().any(|write| write.0 == register)
        };
        let mut threads = self.writes.iter().enumerate();
        threads.any(|(thread, writes)| writes.iter().any(|write| other(thread, write.0)))
    }

    /// 13: one written both ways.
    fn both_ways(&self) -> bool {
        let writes = || self.writes.iter().flatten();
        writes().any(|a| writes().any(|b| a.0 == b.0 && a.1 != b.1))
    }

    /// 14: a register written by plain assignment and read by another thread or a wire.
    fn plain_read(&self) -> bool {
        let read_outside = |thread: usize, register: &Variable| {
            let others = (0..).zip(&self.reads).filter(|reader| reader.0 != thread);
            let mut readers = others.map(|reader| reader.1).chain(&self.wires);
            readers.any(|reads| reads.contains(register))
        };
        (0..).zip(&self.writes).any(|(thread, writes)| {
            let mut plain = writes.iter().filter(|write| write.1 == Way::Plain);
            plain.any(|write| read_outside(thread, &write.0))
        })
    }

    /// 15: a wait other than the single posedge of input 0.
    fn other_wait(&self) -> bool {
        let rise = [Term { edge: Edge::Posedge, variable: 0 }];
        self.waits.iter().any(|&terms| terms != rise)
    }

    /// 18: clock read in an expression.
    fn clock_read(&self) -> bool {
        self.reads.iter().chain(&self.wires).any(|reads| reads.contains(&0))
    }

    /// 19: a wire reads itself or a higher wire.
    fn wire_order(&self) -> bool {
        (self.first_wire..)
            .zip(&self.wires)
            .any(|(wire, reads)| reads.iter().any(|&r| r >= wire))
    }
}

/// 16 asks this of a thread: a wait, a sequence whose first does, a forever whose body
/// does.
fn starts_with_wait(s: &Stmt) -> bool {
    match s {
        Stmt::Wait(_) => true,
        Stmt::Sequence(first, _) => starts_with_wait(first),
        Stmt::Forever(body) => starts_with_wait(body),
        _ => false,
    }
}

/// 17 asks that the thread's body and each loop's body surely waits.
fn waits_everywhere(thread: &Stmt) -> bool {
    let mut bodies = text::statements(thread).into_iter().filter_map(loop_body);
    surely_waits(thread) && bodies.all(surely_waits)
}

fn loop_body(s: &Stmt) -> Option<&Stmt> {
    match s {
        Stmt::While(_, body) | Stmt::Forever(body) => Some(body),
        _ => None,
    }
}

/// These do: a wait; a forever; a sequence with a part that does; if-else with both.
fn surely_waits(s: &Stmt) -> bool {
    match s {
        Stmt::Wait(_) | Stmt::Forever(_) => true,
        Stmt::Sequence(a, b) => surely_waits(a) || surely_waits(b),
        Stmt::IfElse(_, a, b) => surely_waits(a) && surely_waits(b),
        _ => false,
    }
}
