//! Counts the answers in the replay program's output on standard input. With a number as its argument it fails where there
//! were fewer calls, or where a call never gave one of its numbers.

use std::env;
use std::io;
use std::process::ExitCode;

use reference::tally::Tally;

fn main() -> io::Result<ExitCode> {
    let mut tally = Tally::default();
    tally.add(&io::read_to_string(io::stdin())?);
    println!("{tally}");
    let Some(wanted) = env::args().nth(1) else {
        return Ok(ExitCode::SUCCESS);
    };
    let wanted: u64 = wanted.parse().expect("a number of calls");
    for answer in tally.missing() {
        println!("never met: {answer}");
    }
    if tally.calls() < wanted {
        println!("fewer than {wanted} calls");
    }
    let enough = tally.missing().is_empty() && tally.calls() >= wanted;
    Ok(if enough { ExitCode::SUCCESS } else { ExitCode::FAILURE })
}
