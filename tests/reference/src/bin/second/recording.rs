//! Icarus Verilog run on modules: its traces made, or held against the stored ones.

use std::fs;

use reference::encode::encode;
use reference::functions::With;
use reference::icarus::{self, Text};
use reference::module::Module;
use reference::random::Random;
use reference::samples::{self, Bench};
use reference::second::Counts;
use reference::trace::{Cycle, Trace};
use reference::value::Value;
use reference::{operators, sheet, stimulus, verilog};

use crate::printer::printed;
use crate::{Outcome, SEED, STORED, folder};

/// How many random modules are recorded, and so many cycles of each.
const MODULES: usize = 400;
const CYCLES: usize = 20;
const BENCH_CYCLES: usize = 200;

const HEAD: &str = "\
# Traces of Icarus Verilog, made by `tests/run second record`. For each module its sheet, then from the
# start, where all is x, a line a cycle: inputs from 1 up, wires with the clock low, registers and wires
# after its rise. A value is its number and behind a ? the marks of its unknown bits, in hexadecimal.
";

/// Icarus on a stored trace's module and inputs gives what is stored.
pub fn again(trace: &Trace) -> Outcome<Counts> {
    let module = sheet::read(&trace.sheet).map_err(|refusal| format!("{refusal:?}"))?;
    let rows = trace.cycles.iter().map(|cycle| cycle.inputs.clone()).collect();
    let again = recorded(&trace.name, &module, None, rows)?;
    for (number, (stored, now)) in trace.cycles.iter().zip(&again.cycles).enumerate() {
        if stored != now {
            return Err(format!("cycle {number}: {now}, stored {stored}"));
        }
    }
    match again.cycles.len() == trace.cycles.len() {
        true => Ok(Counts { cycles: again.cycles.len(), ..Counts::default() }),
        false => Err(format!("{} cycles", again.cycles.len())),
    }
}

// ---- record

/// Makes the stored traces.
pub fn record() -> Outcome<usize> {
    let mut random = Random::new(SEED);
    let mut text = String::from(HEAD);
    for bench in samples::ALL {
        let module = sheet::read(&bench.sheet()).expect("an accepted sheet");
        let rows = stimulus::bench_rows(bench.name, BENCH_CYCLES, SEED);
        let rows = stimulus::blurred(&rows, &module, &mut random);
        let trace = recorded(bench.name, &module, Some(&bench), rows)?;
        text.push_str(&trace.to_string());
    }
    let trace = recorded("operators", &operators::module(), None, operators::rows())?;
    text.push_str(&trace.to_string());
    for number in 0..MODULES {
        let (module, rows) = stimulus::sample(CYCLES, number % 2 == 1, &mut random);
        let trace = recorded(&format!("random{number}"), &module, None, rows)?;
        text.push_str(&trace.to_string());
    }
    fs::write(STORED, &text).map_err(|e| format!("{STORED}: {e}"))?;
    println!("{} modules, {} bytes", samples::ALL.len() + 1 + MODULES, text.len());
    Ok(0)
}

/// Traces of random modules with functions.
pub fn with_functions(seed: u64) -> Outcome<Vec<Trace>> {
    let mut random = Random::new(seed);
    let trace = |number: usize| {
        let parts = number % 2 == 1;
        let (module, rows) = stimulus::sample_by(With::Some, CYCLES, parts, &mut random);
        recorded(&format!("random{number}"), &module, None, rows)
    };
    (0..MODULES).map(trace).collect()
}

/// The module's trace in Icarus: the bench's own Verilog, or else what the command or this package
/// prints.
fn recorded(
    name: &str,
    module: &Module,
    bench: Option<&Bench>,
    rows: Vec<Vec<Value>>,
) -> Outcome<Trace> {
    let sheet = encode(module);
    let folder = folder()?;
    let command = std::env::var("WALBRYTS_VERILOG").ok();
    let text = match (command, bench) {
        (Some(command), _) => {
            let verilog = printed(&folder, &command, &sheet)?;
            Text { name: verilog::NAME, clock: "i0", verilog }
        }
        (None, Some(bench)) => {
            Text { name: bench.name, clock: "clk", verilog: bench.verilog.into() }
        }
        (None, None) => {
            Text { name: verilog::NAME, clock: "i0", verilog: verilog::text(module) }
        }
    };
    let after = icarus::trace(&folder, module, &text, &rows)
        .map_err(|error| format!("{name}: {error}"))?;
    let cycles = rows.into_iter().zip(after).map(|(inputs, after)| Cycle { inputs, after });
    Ok(Trace { name: name.into(), sheet, cycles: cycles.collect() })
}
