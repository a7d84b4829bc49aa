//! Checks [9] and [10] on random modules: `work [MODULES [SEED]]`. The calls are those of the
//! proved library, or of the reference where the feature `proved` is off.

use std::process::ExitCode;

use reference::encode::encode;
use reference::extractable;
use reference::lively::{self, Kind, Size};
use reference::module::Module;
use reference::random::Random;
use reference::samples::{self, to_hex};
use reference::sheet::read;
use reference::{work, written};

const MODULES: usize = 2_000;
const INSTANTS: usize = 12;
const WAITS: usize = 12;
/// After so many failures the rest isn't tried.
const FAILURES: usize = 5;

fn main() -> ExitCode {
    let mut arguments = std::env::args().skip(1).map(|n| n.parse().expect("a number"));
    let modules = arguments.next().map_or(MODULES, |n| n as usize);
    let mut random = Random::new(arguments.next().unwrap_or(1));
    let mut failures = 0;
    let mut judge = |outcome: Result<(), String>, sheet: &[u8]| {
        if let Err(clause) = outcome {
            println!("FAIL  {clause}\n{}", to_hex(sheet));
            failures += 1;
        }
        failures < FAILURES
    };
    let (mut stores, mut writes) = (work::Counts::NONE, written::Counts::NONE);
    let mut sheets = samples::ALL.iter().map(|bench| bench.sheet());
    for module in 0..modules {
        let sheet = sheets.next().unwrap_or_else(|| encode(&extractable::module(&mut random)));
        let other = encode(&any_module(module, &mut random));
        let on = judge(exact(&sheet, &mut stores, &mut random), &sheet)
            && judge(as_written(&sheet, &mut writes, &mut random), &sheet)
            && judge(as_written(&other, &mut writes, &mut random), &other);
        if !on {
            break;
        }
    }
    let failed = failures + told(modules, &stores, &writes);
    println!("{modules} modules tried twice, {failed} failed");
    if failed == 0 { ExitCode::SUCCESS } else { ExitCode::FAILURE }
}

/// Prints the counts; how many are too small for the check to say something.
fn told(modules: usize, stores: &work::Counts, writes: &written::Counts) -> usize {
    let work::Counts { instants, commits, stores, partly } = *stores;
    println!(
        "[9]: {instants} instants and {commits} commits, {stores} wire stores, {partly} runs that \
         stored some wires and not all"
    );
    let written::Counts { threads, legs, stores: plain, deferred, several } = *writes;
    println!(
        "[10]: {threads} threads, {legs} ways from wait to wait, {plain} stores and {deferred} \
         pending values, {several} ways with several"
    );
    let modules = modules as u64;
    let few = [instants, commits, stores, partly, threads, legs, plain, deferred, several]
        .into_iter()
        .filter(|&count| count < modules)
        .count();
    if few > 0 {
        println!("{few} of these counts are below the number of modules");
    }
    few
}

/// Threads that share registers, waits for anything: rule 17 is met by some of its threads.
fn any_module(number: usize, random: &mut Random) -> Module {
    let size = if number.is_multiple_of(4) { Size::Tiny } else { Size::Usual };
    lively::module(Kind::Events, size, random)
}

fn exact(sheet: &[u8], sum: &mut work::Counts, random: &mut Random) -> Result<(), String> {
    let reading = read(sheet);
    #[cfg(feature = "proved")]
    let calls = reference::library::Library { sheet };
    #[cfg(not(feature = "proved"))]
    let calls = reference::calls::Reference::new(&reading);
    let counts = work::check(&calls, &reading, work::Claim::AsStated, INSTANTS, random)?;
    sum.add(&counts);
    Ok(())
}

fn as_written(
    sheet: &[u8],
    sum: &mut written::Counts,
    random: &mut Random,
) -> Result<(), String> {
    let reading = read(sheet);
    #[cfg(feature = "proved")]
    let calls = reference::library::Library { sheet };
    #[cfg(not(feature = "proved"))]
    let calls = reference::calls::Reference::new(&reading);
    let counts = written::check(&calls, &reading, written::Reading::AsWritten, WAITS, random)?;
    sum.add(&counts);
    Ok(())
}
