//! What a statement does, over its tree: from some values it ends, or stops at a wait with what
//! remains to do.

use crate::module::{Expr, Function, Module, Stmt, Term, Variable};
use crate::state::{Pending, State};
use crate::value::{Scope, Value, evaluate};

/// A store or a pending value.
#[derive(Clone, Copy, Debug, PartialEq, Eq)]
pub enum Write {
    Stored(Variable, Value),
    Deferred(Variable, Value),
}

impl Write {
    /// Makes it in a state, where it wakes nothing.
    pub fn make(self, module: &Module, state: &mut State) {
        match self {
            Write::Stored(target, value) => {
                state.values[usize::from(target)] = value;
            }
            Write::Deferred(target, value) => {
                state.pending[usize::from(target - module.inputs)] = Pending::of(value);
            }
        }
    }
}

#[derive(Clone, Debug, PartialEq, Eq)]
pub enum Course {
    Ends,
    Stops(Vec<Term>, Stmt),
}

/// How statements are read. All but the first are misreadings, by which the check itself is
/// tested.
#[derive(Clone, Copy, Debug, PartialEq, Eq)]
pub enum Reading {
    AsWritten,
    /// A while does its body before it tests its condition.
    TestedAfterTheBody,
    /// A sequence whose first part stops has only the rest of that part to do.
    SecondPartDropped,
    /// What is written last stands first.
    LastFirst,
    /// Behind a wait in its body a while is over.
    LoopOver,
}

/// What a statement writes from a state, in order, and how it goes on.
pub fn meaning(
    module: &Module,
    reading: Reading,
    state: &State,
    s: &Stmt,
) -> (Vec<Write>, Course) {
    let values = state.values.to_vec();
    let mut page = Page { module, reading, values, writes: Vec::new() };
    let course = page.course(s);
    (page.writes, course)
}

struct Page<'a> {
    module: &'a Module,
    reading: Reading,
    values: Vec<Value>,
    writes: Vec<Write>,
}

impl Scope for Page<'_> {
    fn width(&self, variable: Variable) -> u8 {
        self.module.widths[usize::from(variable)]
    }

    fn value(&self, variable: Variable) -> Value {
        self.values[usize::from(variable)]
    }

    fn functions(&self) -> &[Function] {
        &self.module.functions
    }
}

impl Page<'_> {
    fn course(&mut self, s: &Stmt) -> Course {
        match s {
            Stmt::Empty => Course::Ends,
            Stmt::Set(target, e) => {
                let value = evaluate(e, self);
                self.values[usize::from(*target)] = value;
                self.write(Write::Stored(*target, value))
            }
            Stmt::Later(target, e) => {
                let value = evaluate(e, self);
                self.write(Write::Deferred(*target, value))
            }
            Stmt::Sequence(a, b) => match self.course(a) {
                Course::Ends => self.course(b),
                Course::Stops(terms, rest) => Course::Stops(terms, self.behind(rest, b)),
            },
            Stmt::If(e, a) => self.one_of(e, a, &Stmt::Empty),
            Stmt::IfElse(e, a, b) => self.one_of(e, a, b),
            Stmt::While(e, a) => {
                let tested = self.reading != Reading::TestedAfterTheBody;
                if tested && !self.holds(e) { Course::Ends } else { self.round(a, s) }
            }
            Stmt::Forever(a) => self.round(a, s),
            Stmt::Wait(terms) => Course::Stops(terms.clone(), Stmt::Empty),
        }
    }

    fn write(&mut self, write: Write) -> Course {
        match self.reading {
            Reading::LastFirst => self.writes.insert(0, write),
            _ => self.writes.push(write),
        }
        Course::Ends
    }

    fn holds(&self, e: &Expr) -> bool {
        evaluate(e, self).holds()
    }

    fn one_of(&mut self, e: &Expr, a: &Stmt, b: &Stmt) -> Course {
        if self.holds(e) { self.course(a) } else { self.course(b) }
    }

    /// One round of a loop: its body stops before the loop comes round.
    fn round(&mut self, body: &Stmt, s: &Stmt) -> Course {
        match self.course(body) {
            Course::Stops(terms, rest)
                if self.reading == Reading::LoopOver && matches!(s, Stmt::While(..)) =>
            {
                Course::Stops(terms, rest)
            }
            Course::Stops(terms, rest) => Course::Stops(terms, Stmt::sequence(rest, s.clone())),
            Course::Ends => Course::Ends,
        }
    }

    fn behind(&self, rest: Stmt, b: &Stmt) -> Stmt {
        match self.reading {
            Reading::SecondPartDropped => rest,
            _ => Stmt::sequence(rest, b.clone()),
        }
    }
}

/// All loop bodies surely wait.
pub fn meets_rule_17(s: &Stmt) -> bool {
    match s {
        Stmt::Empty | Stmt::Set(..) | Stmt::Later(..) | Stmt::Wait(_) => true,
        Stmt::Sequence(a, b) | Stmt::IfElse(_, a, b) => meets_rule_17(a) && meets_rule_17(b),
        Stmt::If(_, a) => meets_rule_17(a),
        Stmt::While(_, a) | Stmt::Forever(a) => surely_waits(a) && meets_rule_17(a),
    }
}

/// "these do: a wait; a forever; a sequence with a part that does; if-else with both"
fn surely_waits(s: &Stmt) -> bool {
    match s {
        Stmt::Wait(_) | Stmt::Forever(_) => true,
        Stmt::Sequence(a, b) => surely_waits(a) || surely_waits(b),
        Stmt::IfElse(_, a, b) => surely_waits(a) && surely_waits(b),
        _ => false,
    }
}
