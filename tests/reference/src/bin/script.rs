//! Prints a script for the replay program: `script SEED` a random one, `script example N` that of example 3.2.N of
//! source document 003, `script operators N` the operators on all pairs of 3-bit values (1), ?: on all conditions (2).

use std::io::{self, Write};

use reference::operators;

fn main() -> io::Result<()> {
    let arguments: Vec<String> = std::env::args().skip(1).collect();
    let number = arguments.last().and_then(|number| number.parse::<u64>().ok());
    let script = match (&arguments[..], number) {
        ([_], Some(seed)) => Some(reference::script::script(seed)),
        ([word, _], Some(1)) if word == "operators" => Some(operators::by_rows()),
        ([word, _], Some(2)) if word == "operators" => Some(operators::by_conditions()),
        ([word, _], Some(n @ 1..=8)) if word == "example" => {
            Some(reference::examples::scripts().swap_remove(n as usize - 1))
        }
        _ => None,
    };
    let Some(script) = script else {
        eprintln!("usage: script SEED | script example 1..8 | script operators 1..2");
        std::process::exit(2);
    };
    io::stdout().write_all(&script)
}
