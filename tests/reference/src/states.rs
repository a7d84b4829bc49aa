//! States as they may be handed over: disturbed in one field, or random throughout.

use crate::module::Module;
use crate::random::Random;
use crate::state::{MARKS, PENDING, PLACES, Pending, State, USERS, VALUES};
use crate::value::{Value, mask};

/// The sizes that a state is held against; those of a small module where there is none.
struct Sizes<'a> {
    widths: &'a [u8],
    inputs: usize,
    registers: usize,
    wires: usize,
    threads: usize,
}

impl<'a> Sizes<'a> {
    fn of(module: Option<&'a Module>) -> Sizes<'a> {
        let Some(module) = module else {
            return Sizes {
                widths: &[1, 8, 8, 1],
                inputs: 2,
                registers: 1,
                wires: 1,
                threads: 1,
            };
        };
        Sizes {
            widths: &module.widths,
            inputs: module.inputs.into(),
            registers: module.registers.into(),
            wires: module.wires.len(),
            threads: module.threads.len(),
        }
    }

    /// The width of a variable, 32 past the last.
    fn width(&self, variable: usize) -> u8 {
        self.widths.get(variable).copied().unwrap_or(32)
    }
}

/// A value of the width with any marks, now and then too wide or with a number under a mark.
pub fn value(width: u8, random: &mut Random) -> Value {
    let most = mask(width);
    let number = match random.below(8) {
        0 => most,
        1 => most.wrapping_add(1),
        2 => random.number() as u32,
        3 => 1,
        4 => 0,
        _ => random.number() as u32 & most,
    };
    let unknown = marks(width, random);
    match random.chance(1, 12) {
        true => Value { number, unknown },
        false => Value { number: number & !unknown, unknown },
    }
}

/// Mostly none; else a few, all of the width, or too many.
fn marks(width: u8, random: &mut Random) -> u32 {
    let most = mask(width);
    match random.below(24) {
        0 => most,
        1 => most.wrapping_add(1),
        2 => random.number() as u32,
        3 => most & 1 << random.below(width.into()),
        4 => random.number() as u32 & random.number() as u32 & most,
        5 | 6 => random.number() as u32 & most,
        _ => 0,
    }
}

/// Any number and marks at all.
pub fn any_value(random: &mut Random) -> Value {
    Value { number: random.number() as u32, unknown: random.number() as u32 }
}

/// A value that fits the width.
pub fn fitting_value(width: u8, random: &mut Random) -> Value {
    loop {
        let value = value(width, random);
        if value.fits(width) {
            return value;
        }
    }
}

/// A number below `count`, now and then one past it.
fn index(count: usize, all: usize, random: &mut Random) -> usize {
    match count == 0 || random.chance(1, 4) {
        true => random.below(all),
        false => random.below(count),
    }
}

/// At the end of the time or next to it, or where the short counters ended.
fn nearly_full(random: &mut Random) -> u64 {
    random.pick(&[u64::MAX, 1 << 32]) - random.below(4) as u64
}

/// The state with one field changed: it may fit the module afterwards or not.
pub fn disturb(state: &mut State, module: Option<&Module>, random: &mut Random) {
    let sizes = Sizes::of(module);
    match random.below(16) {
        0..=3 => {
            let variable = index(sizes.widths.len(), VALUES, random);
            state.values[variable] = value(sizes.width(variable), random);
        }
        4 | 5 => {
            let register = index(sizes.registers, PENDING, random);
            let slot = value(sizes.width(sizes.inputs + register), random);
            state.pending[register] = Pending { held: random.chance(3, 4), slot };
        }
        6 | 7 => {
            let thread = index(sizes.threads, PLACES, random);
            let place = match random.chance(3, 4) {
                true => random.below(6) as u8,
                false => random.byte(),
            };
            state.places[thread] = place;
        }
        8 | 9 => {
            let wire = index(sizes.wires, MARKS, random);
            state.due[wire] = !state.due[wire];
        }
        10 => state.time = nearly_full(random),
        11 => state.counts[random.below(USERS)] = nearly_full(random),
        _ => use_up(state, random),
    }
}

/// A user's count at its allowance, next to it or one above; the allowance may be any number.
fn use_up(state: &mut State, random: &mut Random) {
    let user = random.below(USERS);
    let allowance = allowance(random);
    state.allowances[user] = allowance;
    let room = random.pick(&[0, 0, 1, 2, 3, 5, 9]).min(allowance);
    let above = u64::from(random.chance(1, 6));
    state.counts[user] = u64::from(allowance - room) + above;
}

/// Few choices, as many as there can be, or any number.
pub fn allowance(random: &mut Random) -> u32 {
    match random.below(8) {
        0 => 0,
        1..=3 => random.between(1, 40) as u32,
        4 => random.number() as u32,
        _ => u32::MAX - random.below(3) as u32,
    }
}

/// Those of four users.
pub fn allowances(random: &mut Random) -> [u32; USERS] {
    std::array::from_fn(|_| allowance(random))
}

/// Gives every variable a known value.
pub fn make_known(state: &mut State, module: &Module, random: &mut Random) {
    for (slot, &width) in state.values.iter_mut().zip(&module.widths) {
        *slot = Value::known(fitting_value(width, random).number);
    }
}

/// Puts anything into what isn't looked at: slots without a pending value, values and places past
/// the sheet's.
pub fn litter(state: &mut State, module: &Module, random: &mut Random) {
    for value in &mut state.values[module.widths.len()..] {
        *value = any_value(random);
    }
    let pending = state.pending.iter_mut();
    for pending in pending.filter(|pending| !pending.held) {
        pending.slot = any_value(random);
    }
    for place in &mut state.places[module.threads.len()..] {
        *place = random.byte();
    }
}

/// Any state at all.
pub fn noise(random: &mut Random) -> State {
    let mut state = State::ZERO;
    state.values = std::array::from_fn(|_| value(8, random));
    let pending = |_| Pending { held: random.chance(1, 16), slot: value(8, random) };
    state.pending = std::array::from_fn(pending);
    state.places = std::array::from_fn(|_| random.byte());
    state.due = std::array::from_fn(|_| random.chance(1, 16));
    state.time = random.number() >> random.pick(&[0, 32]);
    state.allowances = allowances(random);
    state.counts = state.allowances.map(|allowance| match random.below(4) {
        0 => random.number() >> random.pick(&[0, 32]),
        _ => u64::from(allowance) - random.below(allowance.min(8) as usize + 1) as u64,
    });
    state
}
