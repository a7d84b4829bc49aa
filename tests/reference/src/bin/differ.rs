//! Says where two outputs of the replay program part: `differ SCRIPT REFERENCE OTHER`.
//! The status is 0 where they agree.

use std::fs;
use std::io;
use std::process::ExitCode;

use reference::differ::difference;

fn main() -> io::Result<ExitCode> {
    let paths: Vec<String> = std::env::args().skip(1).collect();
    let [script, reference, other] = &paths[..] else {
        eprintln!("usage: differ SCRIPT REFERENCE OTHER");
        return Ok(ExitCode::from(2));
    };
    match difference(&fs::read(script)?, &fs::read(reference)?, &fs::read(other)?) {
        None => Ok(ExitCode::SUCCESS),
        Some(report) => {
            println!("{report}");
            Ok(ExitCode::FAILURE)
        }
    }
}
