//! Demand 3 checked on one module: whatever order the calls of a list take threads and wires
//! in, whoever chooses, and whatever refused calls stand between them, the clauses of document 01
//! and of document 02, [7], hold after each.

use crate::book::Book;
use crate::calls::{Calls, Reference};
use crate::lanes;
use crate::machine::Machine;
use crate::module::Module;
use crate::random::Random;
use crate::sheet::Refusal;
use crate::state::{MOST, State, USERS};
use crate::value::Value;

mod clauses;
mod cycle;
mod pick;
mod refuse;

pub use pick::Order;

/// How much was done.
#[derive(Clone, Debug, PartialEq, Eq)]
pub struct Counts {
    pub instants: u64,
    pub choices: u64,
    pub calls: u64,
    pub cycle_runs: u64,
    /// Lists that ended because all four allowances were used up.
    pub used_up: u64,
    /// Calls refused, by number.
    pub refused: [u64; 64],
}

impl Counts {
    pub const NONE: Counts = Counts {
        instants: 0,
        choices: 0,
        calls: 0,
        cycle_runs: 0,
        used_up: 0,
        refused: [0; 64],
    };

    pub fn add(&mut self, other: &Counts) {
        self.instants += other.instants;
        self.choices += other.choices;
        self.calls += other.calls;
        self.cycle_runs += other.cycle_runs;
        self.used_up += other.used_up;
        let refused = self.refused.iter_mut().zip(&other.refused);
        refused.for_each(|(sum, count)| *sum += count);
    }
}

type Outcome = Result<(), String>;

/// Drives the module through cycles in each order; what the first clause broken says.
pub fn check(
    calls: &impl Calls,
    reading: &Result<Module, Refusal>,
    cycles: usize,
    random: &mut Random,
) -> Result<Counts, String> {
    let reference = Reference::new(reading);
    let module = reading.as_ref().map_err(|refusal| format!("{refusal:?}"))?;
    let extraction = reference.compiler.extraction().map_err(|n| format!("refused: {n}"))?;
    let rows: Vec<Vec<Value>> = (0..cycles).map(|_| lanes::inputs(module, random)).collect();
    let mut counts = Counts::NONE;
    counts.cycle_runs = cycle::check(calls, module, extraction, &rows)?;
    for order in Order::ALL {
        let few = std::array::from_fn(|_| random.below(MOST_FEW) as u32);
        for allowances in [MOST, few] {
            let book = Book::new(module, extraction);
            let mut list = List::start(calls, &reference, book, (order, allowances), random)?;
            list.drive(&rows)
                .map_err(|clause| format!("{order:?}, after {}: {clause}", list.last))?;
            counts.add(&list.counts);
        }
    }
    Ok(counts)
}

/// Allowances that end in the middle of a list are below this.
const MOST_FEW: usize = 60;

/// A list of calls from the start, with what it has come to.
struct List<'a, C: Calls> {
    calls: &'a C,
    reference: &'a Reference<'a>,
    machine: &'a Machine<'a>,
    random: &'a mut Random,
    order: Order,
    book: Book<'a>,
    state: State,
    allowances: [u32; USERS],
    /// Choices accepted, by user.
    by_user: [u64; USERS],
    /// Choices accepted since the last accepted instant or the start.
    since: u64,
    last: String,
    counts: Counts,
}

impl<'a, C: Calls> List<'a, C> {
    fn start(
        calls: &'a C,
        reference: &'a Reference<'a>,
        book: Book<'a>,
        (order, allowances): (Order, [u32; USERS]),
        random: &'a mut Random,
    ) -> Result<List<'a, C>, String> {
        let machine = reference.simulator.machine().map_err(|n| format!("refused: {n}"))?;
        let mut state = State::ZERO;
        if calls.start(&mut state, allowances) != 0 {
            return Err("the start is refused".into());
        }
        let (by_user, since, last) = ([0; USERS], 0, "start".into());
        let mut list = List {
            calls,
            reference,
            machine,
            random,
            order,
            book,
            state,
            allowances,
            by_user,
            since,
            last,
            counts: Counts::NONE,
        };
        list.holds()?;
        Ok(list)
    }

    /// By turns the clock low with new inputs and the clock high with nothing else changed.
    /// Where all four allowances are used up before the rest, the list ends there.
    fn drive(&mut self, rows: &[Vec<Value>]) -> Outcome {
        self.rest()?;
        for row in rows {
            for clock in [0, 1] {
                let inputs = [&[Value::known(clock)], &row[..]].concat();
                if !self.machine.quiet(&self.state) {
                    self.counts.used_up += 1;
                    return self.ends_here(&inputs);
                }
                self.instant(&inputs)?;
                self.rest()?;
            }
        }
        Ok(())
    }

    /// No user's choice is accepted any more, and no instant.
    fn ends_here(&mut self, inputs: &[Value]) -> Outcome {
        let choice = self.machine.lowest(&self.state);
        for user in 0..USERS as u8 {
            let number = self.calls.choose(&mut self.state.clone(), user, choice);
            if number != 47 {
                return Err(format!("all are used up, but choice {choice} gives {number}"));
            }
        }
        match self.calls.instant(&mut self.state.clone(), inputs) {
            32 => Ok(()),
            number => Err(format!("not quiet, but an instant gives {number}")),
        }
    }

    /// A user with choices left, where there is one.
    fn user(&mut self) -> Option<u8> {
        let users: Vec<u8> =
            (0..USERS as u8).filter(|&user| self.state.has_room(user)).collect();
        (!users.is_empty()).then(|| self.random.pick(&users))
    }

    /// An instant that is to be accepted.
    fn instant(&mut self, inputs: &[Value]) -> Outcome {
        self.counts.calls += 1;
        self.last = format!("instant {}", self.counts.instants);
        let number = self.calls.instant(&mut self.state, inputs);
        if number != 0 {
            return Err(format!("refused with {number} in a quiet state"));
        }
        self.counts.instants += 1;
        self.since = 0;
        self.book.instant(inputs);
        self.holds()
    }

    /// Calls until the state is quiet or all allowances are used up, refused ones between them.
    fn rest(&mut self) -> Outcome {
        loop {
            if self.random.chance(1, 6) {
                self.refused_call()?;
            }
            if self.machine.quiet(&self.state) {
                return Ok(());
            }
            match self.user() {
                Some(user) => self.accepted_call(user)?,
                None => return Ok(()),
            }
        }
    }

    /// So many choices of the user were accepted.
    fn accept(&mut self, user: u8, choices: usize) -> Outcome {
        self.by_user[usize::from(user)] += choices as u64;
        self.counts.choices += choices as u64;
        self.since += choices as u64;
        self.holds()
    }
}
