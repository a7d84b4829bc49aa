//! The state of a simulation, in the form in which calls are handed it.

use crate::sheet::MOST_WIDTH;
use crate::value::Value;

pub const VALUES: usize = 80;
pub const PENDING: usize = 32;
pub const PLACES: usize = 8;
pub const MARKS: usize = 32;
/// How many users step one state.
pub const USERS: usize = 4;
/// The greatest allowance for each user.
pub const MOST: [u32; USERS] = [u32::MAX; USERS];

/// Any such state can be handed to a call; whether it fits a sheet is judged there.
/// What lies past the sheet's variables, registers, threads and wires is carried along.
#[derive(Clone, Debug, PartialEq, Eq, Hash, PartialOrd, Ord)]
pub struct State {
    /// By variable.
    pub values: [Value; VALUES],
    /// By register.
    pub pending: [Pending; PENDING],
    /// By thread.
    pub places: [u8; PLACES],
    /// By wire.
    pub due: [bool; MARKS],
    pub time: u64,
    /// By user: the choices accepted.
    pub counts: [u64; USERS],
    /// By user: how many may be accepted.
    pub allowances: [u32; USERS],
}

/// Where a register's pending value is kept. With the flag down the slot means nothing.
#[derive(Clone, Copy, Debug, PartialEq, Eq, Hash, PartialOrd, Ord)]
pub struct Pending {
    pub held: bool,
    pub slot: Value,
}

impl Pending {
    pub const NONE: Pending = Pending { held: false, slot: Value::ZERO };

    pub fn of(value: Value) -> Pending {
        Pending { held: true, slot: value }
    }

    pub fn value(self) -> Option<Value> {
        self.held.then_some(self.slot)
    }
}

impl State {
    /// All zero, nothing unknown.
    pub const ZERO: State = State {
        values: [Value::ZERO; VALUES],
        pending: [Pending::NONE; PENDING],
        places: [0; PLACES],
        due: [false; MARKS],
        time: 0,
        counts: [0; USERS],
        allowances: [0; USERS],
    };

    /// At the start all is x, each value in its variable's bits and in all 32 past the last; places
    /// and counters are 0, every wire is due, and the allowances are fixed.
    pub fn start(widths: &[u8], wires: usize, allowances: [u32; USERS]) -> State {
        let width = |variable: usize| widths.get(variable).copied().unwrap_or(MOST_WIDTH);
        let values = std::array::from_fn(|variable| Value::x(width(variable)));
        let mut state = State { values, allowances, ..State::ZERO };
        state.due[..wires].fill(true);
        state
    }

    /// The choices accepted, of all users.
    pub fn total(&self) -> u64 {
        self.counts.iter().sum()
    }

    /// The user has choices left. A user above 3 is none.
    pub fn has_room(&self, user: u8) -> bool {
        let user = usize::from(user);
        user < USERS && self.counts[user] < self.allowances[user].into()
    }
}
