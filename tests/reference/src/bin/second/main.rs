//! A second simulator, Icarus Verilog, beside the calls of the proved library (or of the reference,
//! where the feature `proved` is off), on the bench modules and on random extractable modules, in every
//! bit of every value, from the start on, with unknown bits among the inputs:
//!
//! - `second check`: the calls held against the stored traces; needs no Icarus.
//! - `second record`: makes the stored traces anew.
//! - `second icarus`: Icarus, run again, held against the stored traces.
//! - `second printer`: the Verilog that the proved program prints, or the command that
//!   WALBRYTS_VERILOG names, held against this package's, byte for byte: the stored modules, which
//!   Icarus runs, and random ones of every form; needs no Icarus.
//! - `second functions [SEED]`: Icarus, run on random modules with functions, and the calls held
//!   against its traces. The proved library's are refused as long as it doesn't read such sheets.
//! - `second verilog FILE`: this package's Verilog of a sheet's bytes.
//!
//! In `record` and `icarus` WALBRYTS_VERILOG may name a command whose Verilog is run in place of this
//! package's. Such a command is run in the repository's folder; its last argument is a file with the
//! sheet's bytes. The last line is `N passed, M failed`; the status is 0 where M is 0.

use std::fs;
use std::path::PathBuf;
use std::process::ExitCode;

use reference::census::Census;
use reference::random::Random;
use reference::second::{Counts, check};
use reference::sheet;
use reference::trace::{self, Trace};

mod printer;
mod recording;

const STORED: &str = concat!(env!("CARGO_MANIFEST_DIR"), "/../data/second.trace");
const SEED: u64 = 1;
const USAGE: &str =
    "usage: second check | record | icarus | printer | functions [SEED] | verilog FILE";

type Outcome<T = ()> = Result<T, String>;

fn main() -> ExitCode {
    let arguments: Vec<String> = std::env::args().skip(1).collect();
    let arguments: Vec<&str> = arguments.iter().map(String::as_str).collect();
    let done = match arguments[..] {
        ["check"] => held(checked),
        ["icarus"] => held(|trace, _| recording::again(trace)),
        ["record"] => recording::record(),
        ["functions"] => functions(SEED),
        ["functions", seed] => match seed.parse() {
            Ok(seed) => functions(seed),
            Err(_) => Err("a seed is a number".into()),
        },
        ["printer"] => printer::hold(),
        ["verilog", file] => printer::print(file),
        _ => Err(USAGE.into()),
    };
    let _ = folder().map(fs::remove_dir_all);
    match done {
        Ok(0) => ExitCode::SUCCESS,
        Ok(_) => ExitCode::FAILURE,
        Err(text) => {
            eprintln!("{text}");
            ExitCode::from(2)
        }
    }
}

// ---- check and icarus: each stored trace

fn stored() -> Outcome<Vec<Trace>> {
    let text = fs::read_to_string(STORED).map_err(|e| format!("{STORED}: {e}"))?;
    trace::parse(&text).map_err(|line| format!("{STORED}:{line}: no trace"))
}

fn held(hold: impl FnMut(&Trace, &mut Random) -> Outcome<Counts>) -> Outcome<usize> {
    held_to(&stored()?, hold)
}

/// Icarus on random modules with functions, and the calls.
fn functions(seed: u64) -> Outcome<usize> {
    held_to(&recording::with_functions(seed)?, checked)
}

/// How many failed.
fn held_to(
    traces: &[Trace],
    mut hold: impl FnMut(&Trace, &mut Random) -> Outcome<Counts>,
) -> Outcome<usize> {
    let mut random = Random::new(SEED);
    let (mut sum, mut census, mut failed) = (Counts::default(), Census::default(), 0);
    for trace in traces {
        match hold(trace, &mut random) {
            Ok(counts) => sum.add(&counts),
            Err(difference) => {
                failed += 1;
                println!("FAIL  {}: {difference}", trace.name);
            }
        }
        if let Ok(module) = sheet::read_with_functions(&trace.sheet) {
            census.add(&module);
        }
    }
    println!("{} modules, {} cycles", traces.len(), sum.cycles);
    if sum.choices > 0 {
        let Counts { choices, reached, waits, .. } = sum;
        println!("{choices} choices by events; {reached} of {waits} waits reached");
    }
    failed += missing(&census, traces.len());
    println!("{} passed, {failed} failed", traces.len() - failed.min(traces.len()));
    Ok(failed)
}

/// The forms that an extractable module can have are all there, in more than 300 modules; else 1.
fn missing(census: &Census, modules: usize) -> usize {
    let beside = |form: &String| {
        form.starts_with("edge ") || (form.starts_with("wait of ") && form != "wait of 1")
    };
    let missing: Vec<String> = census.missing().into_iter().filter(|f| !beside(f)).collect();
    if !missing.is_empty() || modules < 304 {
        println!("{modules} modules; never met: {missing:?}");
    }
    usize::from(!missing.is_empty() || modules < 304)
}

fn checked(trace: &Trace, random: &mut Random) -> Outcome<Counts> {
    #[cfg(feature = "proved")]
    let calls = reference::library::Library { sheet: &trace.sheet };
    #[cfg(not(feature = "proved"))]
    let reading = sheet::read_with_functions(&trace.sheet);
    #[cfg(not(feature = "proved"))]
    let calls = reference::calls::Reference::new(&reading);
    check(&calls, trace, random)
}

fn folder() -> Outcome<PathBuf> {
    let folder = std::env::temp_dir().join(format!("walbryts-{}", std::process::id()));
    fs::create_dir_all(&folder).map_err(|e| format!("{}: {e}", folder.display()))?;
    Ok(folder)
}
