//! The proved library beside Icarus, Verilator and Yosys on the bench modules: the same inputs, in
//! one run. `benchmark [REPEATS [MODULE..]]` prints tables in Markdown; each figure is the median
//! of the repeats, each ratio the median of the ratios within a repeat, in processor time but for
//! the builds. Where registers or wires at the end differ, it says so and the status is 1.
//!
//! `benchmark reading [REPEATS]` prints the table of texts alone, which needs no Verilator and no
//! Yosys. `benchmark profile events|expressions MODULE` runs the library alone, for a profiler.

use std::process::ExitCode;

use reference::samples::{self, Bench};
use reference::sheet;
use reference::stimulus::{Rows, bench_rows};

mod clock;
mod icarus;
mod machine;
mod reading;
mod table;
mod verilator;
mod walbryts;
mod yosys;

use table::Measured;

/// Cycles of event simulation beside Icarus, and of the largest module.
const CYCLES: usize = 500_000;
const FEWER: usize = 50_000;
/// Cycles by expressions beside Verilator.
const MANY: usize = 1_000_000;
const REPEATS: usize = 5;
/// How long the library runs for a profiler, in seconds.
const PROFILED: f64 = 2.0;
const SEED: u64 = 1;

fn main() -> ExitCode {
    let arguments: Vec<String> = std::env::args().skip(1).collect();
    if arguments.first().is_some_and(|word| word == "profile") {
        return profile(&arguments[1..]);
    }
    if arguments.first().is_some_and(|word| word == "reading") {
        return texts(&arguments[1..]);
    }
    let repeats =
        arguments.first().map_or(REPEATS, |n| n.parse().expect("a number of repeats"));
    let only = arguments.get(1..).unwrap_or_default();
    let wanted = |bench: &Bench| only.is_empty() || only.iter().any(|name| name == bench.name);
    let mut rows = Vec::new();
    for bench in samples::ALL.into_iter().filter(wanted) {
        eprintln!("{}", bench.name);
        match measured(&bench, repeats) {
            Ok(row) => rows.push(row),
            Err(error) => {
                eprintln!("{}: {error}", bench.name);
                return ExitCode::FAILURE;
            }
        }
    }
    println!("{}", machine::description());
    print!("{}", table::tables(&rows, repeats));
    reading(repeats)
}

/// The table of texts alone.
fn texts(arguments: &[String]) -> ExitCode {
    let repeats =
        arguments.first().map_or(REPEATS, |n| n.parse().expect("a number of repeats"));
    reading(repeats)
}

/// The table of texts.
fn reading(repeats: usize) -> ExitCode {
    match reading::measured(repeats) {
        Ok(texts) => print!("{}", table::reading(&texts)),
        Err(error) => {
            eprintln!("reading: {error}");
            return ExitCode::FAILURE;
        }
    }
    ExitCode::SUCCESS
}

/// The library alone, again and again from the start, for some seconds.
fn profile(arguments: &[String]) -> ExitCode {
    let [way, name] = arguments else {
        eprintln!("usage: benchmark profile events|expressions MODULE");
        return ExitCode::from(2);
    };
    let bench = samples::ALL.into_iter().find(|bench| bench.name == name);
    let bench = bench.expect("the name of a bench module");
    let proved = walbryts::Walbryts::new(&bench, &bench_rows(name, FEWER, SEED));
    let (mut seconds, mut cycles) = (0.0, 0);
    while seconds < PROFILED {
        let by_events = way == "events";
        let run = if by_events { proved.events(FEWER) } else { proved.expressions(FEWER) };
        seconds += run.1;
        cycles += FEWER;
    }
    println!("{way} {name}: {:.3} µs a cycle", seconds / cycles as f64 * 1e6);
    ExitCode::SUCCESS
}

/// One module's figures, or how the simulators differ.
fn measured(bench: &Bench, repeats: usize) -> Result<Measured, String> {
    let rows: Rows = bench_rows(bench.name, MANY, SEED);
    let cycles = if bench.name == "pipe8" { FEWER } else { CYCLES };
    let module = sheet::read(&bench.sheet()).map_err(|refusal| format!("{refusal:?}"))?;
    let proved = walbryts::Walbryts::new(bench, &rows);
    let icarus = icarus::Icarus::new(bench, &module, &rows[..cycles])?;
    let verilator = verilator::Verilator::new(bench, &module, &rows)?;
    let mut measured = Measured::new(bench.name);
    for _ in 0..repeats {
        measured.icarus_build.push(icarus.build()?);
        measured.verilator_build.push(verilator.build()?);
        let (state, events) = proved.events(cycles);
        let (theirs, icarus) = icarus.run()?;
        agree("Icarus", &state, &theirs)?;
        let (_, million) = proved.events(MANY);
        let (registers, expressions) = proved.expressions(MANY);
        let (theirs, verilator) = verilator.run()?;
        agree("Verilator", &registers, &theirs)?;
        measured.events.push(events / cycles as f64);
        measured.icarus.push(icarus / cycles as f64);
        measured.expressions.push(expressions / MANY as f64);
        measured.verilator.push(verilator / MANY as f64);
        measured.extraction.push(proved.extraction());
        measured.million_by_events.push(million);
        if let Some(seconds) = yosys::seconds(bench)? {
            measured.yosys.push(seconds);
        }
    }
    Ok(measured)
}

/// The values at the end, in decimal, are the same.
fn agree(other: &str, ours: &[String], theirs: &[String]) -> Result<(), String> {
    match ours == theirs {
        true => Ok(()),
        false => Err(format!("at the end {ours:?}, in {other} {theirs:?}")),
    }
}
