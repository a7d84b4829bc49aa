//! Random modules that extraction refuses: extractable ones with a property changed, aimed at
//! one of the numbers 12 to 21.

use crate::encode::encode;
use crate::extractable;
use crate::extraction::{extract, number};
use crate::functions::With;
use crate::module::Module;
use crate::random::Random;
use crate::sheet::read_with_functions;

mod edit;
mod rules;

/// The numbers that can be aimed at.
pub const AIMS: [u8; 10] = [
    number::TWO_WRITERS,
    number::BOTH_WAYS,
    number::PLAIN_READ,
    number::OTHER_WAIT,
    number::NO_FIRST_WAIT,
    number::NO_SURE_WAIT,
    number::CLOCK_READ,
    number::WIRE_ORDER,
    number::WAITS,
    number::NODES,
];

/// A module that is read and refused, mostly with the number; now and then there is more
/// than one thing wrong with it.
pub fn module(aim: u8, random: &mut Random) -> Module {
    module_by(aim, With::AsRead, random)
}

/// Of 21 with functions as sheets are read.
pub fn module_by(aim: u8, with: With, random: &mut Random) -> Module {
    loop {
        let Some(mut module) = broken(aim, with, random) else {
            continue;
        };
        if random.chance(1, 6) {
            let second = random.pick(&AIMS[..9]);
            let _ = rules::break_rule(&mut module, second, random);
        }
        if read_with_functions(&encode(&module)).is_ok() && extract(&module).is_err() {
            return module;
        }
    }
}

/// An extractable module with the property changed; none where it can't be.
fn broken(aim: u8, with: With, random: &mut Random) -> Option<Module> {
    if aim == number::NODES {
        return Some(large(random));
    }
    let mut module = extractable::module_by(with, random);
    rules::break_rule(&mut module, aim, random)?;
    Some(module)
}

/// One node too many now and then, else any number that is too large.
fn large(random: &mut Random) -> Module {
    if random.chance(1, 40) {
        let nodes = random.between(4097, 4100);
        return extractable::of_nodes(nodes, random);
    }
    loop {
        let module = extractable::with_many_branches(random);
        if extract(&module) == Err(number::NODES) {
            return module;
        }
    }
}
