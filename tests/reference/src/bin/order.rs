//! Checks demand 3 on random modules: `order [MODULES [SEED]]`. The calls are those of the proved
//! library, or of the reference where the feature `proved` is off.

use std::process::ExitCode;

use reference::encode::encode;
use reference::extractable;
use reference::order::{Counts, check};
use reference::random::Random;
use reference::samples::{self, to_hex};
use reference::sheet::read;

const MODULES: usize = 2_000;
const CYCLES: usize = 20;

fn main() -> ExitCode {
    let mut arguments = std::env::args().skip(1).map(|n| n.parse().expect("a number"));
    let modules = arguments.next().map_or(MODULES, |n| n as usize);
    let mut random = Random::new(arguments.next().unwrap_or(1));
    let (mut passed, mut failed) = (0, 0);
    let mut sum = Counts::NONE;
    let bench: Vec<Vec<u8>> = samples::ALL.iter().map(|bench| bench.sheet()).collect();
    let mut sheets = bench.into_iter();
    for _ in 0..modules {
        let sheet = sheets.next().unwrap_or_else(|| encode(&extractable::module(&mut random)));
        match check_sheet(&sheet, &mut random) {
            Ok(counts) => {
                passed += 1;
                sum.add(&counts);
            }
            Err(clause) => {
                failed += 1;
                println!("FAIL  {clause}\n{}", to_hex(&sheet));
            }
        }
        if failed == 5 {
            break;
        }
    }
    let Counts { instants, choices, calls, cycle_runs, used_up, refused } = sum;
    println!(
        "{passed} modules, {instants} instants, {choices} choices and {calls} calls in all,"
    );
    println!(
        "{used_up} lists ended by used-up allowances, {cycle_runs} cycle runs; refused calls by number:"
    );
    for (number, count) in refused.iter().enumerate().filter(|(_, count)| **count > 0) {
        println!("  {number:<4}{count:>10}");
    }
    let missing: Vec<usize> = [22, 25, 32, 33, 34, 35, 46, 47]
        .into_iter()
        .filter(|&number| refused[number] == 0)
        .collect();
    if !missing.is_empty() {
        failed += 1;
        println!("never met: {missing:?}");
    }
    println!("{passed} passed, {failed} failed");
    if failed == 0 { ExitCode::SUCCESS } else { ExitCode::FAILURE }
}

fn check_sheet(sheet: &[u8], random: &mut Random) -> Result<Counts, String> {
    let reading = read(sheet);
    #[cfg(feature = "proved")]
    let calls = reference::library::Library { sheet };
    #[cfg(not(feature = "proved"))]
    let calls = reference::calls::Reference::new(&reading);
    check(&calls, &reading, CYCLES, random)
}
