//! Threads that start with a wait, and loops that surely wait.

use super::{Generator, Part};
use crate::extraction::text::Way;
use crate::module::Stmt;

impl Generator<'_> {
    pub(super) fn thread(&mut self, thread: usize) -> Stmt {
        let room = self.random.between(0, self.room);
        match self.random.chance(1, 2) {
            true => self.with_reset(thread, room),
            false => self.first(thread, room),
        }
    }

    /// A body that sets all its registers to constants on an input or where a condition
    /// fails, as it does on x. So they become known.
    fn with_reset(&mut self, thread: usize, room: usize) -> Stmt {
        let resets = self.targets(thread).into_iter().map(|(target, way)| {
            let value = self.constant(self.width(target));
            write(way, target, value)
        });
        let resets = Stmt::list(resets.collect());
        let condition = self.condition(thread);
        let body = self.free(thread, room);
        let body = Stmt::if_else(condition, body, resets);
        Stmt::sequence(Stmt::posedge(0), body)
    }

    /// A statement that starts with a wait: a wait, a sequence whose first does, a forever
    /// whose body does.
    fn first(&mut self, thread: usize, room: usize) -> Stmt {
        match self.random.below(8) {
            0 => Stmt::posedge(0),
            1 => Stmt::forever(self.first(thread, room)),
            _ => {
                let share = self.random.between(0, room / 2);
                let first = self.first_of(thread, share);
                Stmt::sequence(first, self.free(thread, room - share))
            }
        }
    }

    fn first_of(&mut self, thread: usize, room: usize) -> Stmt {
        if room == 0 { Stmt::posedge(0) } else { self.first(thread, room) }
    }

    /// Any statement of about so many instructions.
    fn free(&mut self, thread: usize, room: usize) -> Stmt {
        if room <= 1 {
            return self.simple(thread);
        }
        match self.random.below(16) {
            0 | 1 => Stmt::when(self.condition(thread), self.free(thread, room - 1)),
            2 | 3 => {
                let share = self.random.between(0, room - 1);
                let condition = self.condition(thread);
                let first = self.free(thread, share);
                Stmt::if_else(condition, first, self.free(thread, room - 1 - share))
            }
            4 => Stmt::while_loop(self.condition(thread), self.sure(thread, room - 1)),
            5 => Stmt::forever(self.sure(thread, room - 1)),
            6 => self.simple(thread),
            _ => {
                let share = self.random.between(0, room);
                let first = self.free(thread, share);
                Stmt::sequence(first, self.free(thread, room - share))
            }
        }
    }

    /// A statement that surely waits: a wait; a forever; a sequence with a part that does;
    /// an if-else with both.
    fn sure(&mut self, thread: usize, room: usize) -> Stmt {
        if room <= 1 {
            return Stmt::posedge(0);
        }
        let share = self.random.between(0, room - 1);
        match self.random.below(8) {
            0 => Stmt::posedge(0),
            1 => Stmt::forever(self.sure(thread, room - 1)),
            2 => {
                let condition = self.condition(thread);
                let first = self.sure(thread, share);
                Stmt::if_else(condition, first, self.sure(thread, room - 1 - share))
            }
            3..=5 => {
                let first = self.free(thread, share);
                Stmt::sequence(first, self.sure(thread, room - 1 - share))
            }
            _ => {
                let first = self.sure(thread, share);
                Stmt::sequence(first, self.free(thread, room - 1 - share))
            }
        }
    }

    /// An assignment, now and then a wait or nothing.
    fn simple(&mut self, thread: usize) -> Stmt {
        let targets = self.targets(thread);
        match self.random.below(12) {
            0 => Stmt::Empty,
            1 => Stmt::posedge(0),
            _ if targets.is_empty() => Stmt::Empty,
            _ => {
                let (target, way) = self.random.pick(&targets);
                let value = self.expr(self.width(target), Part::Thread(thread));
                write(way, target, value)
            }
        }
    }
}

fn write(way: Way, target: u8, value: crate::module::Expr) -> Stmt {
    match way {
        Way::Plain => Stmt::Set(target, value),
        Way::Later => Stmt::Later(target, value),
    }
}
