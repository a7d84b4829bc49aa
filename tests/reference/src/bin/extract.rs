//! Holds the proved library's extraction and cycle run against the reference: number and all
//! words of both tables, registers, places and wires. `extract [SEED]`. A group of modules stops
//! at its first difference and prints it; the status is 0 where no group has one. Without the
//! feature `proved` the reference is held against itself, which shows the numbers met.

use std::process::ExitCode;

use reference::encode::encode;
use reference::extraction::extract;
use reference::holding::Holding;
use reference::module::Module;
use reference::random::Random;
use reference::samples::{self, to_hex};
use reference::sheet::read_numbers;
use reference::{extractable, limits, refused};

const EXTRACTABLE: usize = 20_000;
const NEARLY_FULL: usize = 250;
/// For each number.
const REFUSED: usize = 2_000;

type Outcome = Result<(), String>;

fn main() -> ExitCode {
    let seed =
        std::env::args().nth(1).map_or(1, |seed| seed.parse().expect("a seed is a number"));
    let mut comparison = Comparison::new(seed);
    comparison.bench_modules();
    comparison.extractable();
    comparison.nearly_full();
    for aim in refused::AIMS {
        comparison.refused(aim);
    }
    comparison.not_read();
    comparison.numbers();
    println!("{} passed, {} failed", comparison.passed, comparison.failed);
    if comparison.failed == 0 { ExitCode::SUCCESS } else { ExitCode::FAILURE }
}

struct Comparison {
    passed: u32,
    failed: u32,
    random: Random,
    holding: Holding,
    /// Extractable modules by their nodes.
    sizes: [u64; 5],
}

impl Comparison {
    fn new(seed: u64) -> Comparison {
        let (random, holding) = (Random::new(seed), Holding::default());
        Comparison { passed: 0, failed: 0, random, holding, sizes: [0; 5] }
    }

    // ---- groups

    fn group(&mut self, name: &str, run: impl FnOnce(&mut Comparison) -> Outcome) {
        let before: u64 = self.holding.extractions.iter().sum();
        let outcome = run(self);
        let calls = self.holding.extractions.iter().sum::<u64>() - before;
        match outcome {
            Ok(()) => {
                self.passed += 1;
                println!("ok    {name} ({calls} extractions)");
            }
            Err(difference) => {
                self.failed += 1;
                println!("FAIL  {name}\n{difference}");
            }
        }
    }

    fn bench_modules(&mut self) {
        self.group("bench modules", |comparison| {
            samples::ALL.iter().try_for_each(|bench| comparison.hold(&bench.sheet()))
        });
    }

    fn extractable(&mut self) {
        self.group("extractable modules", |comparison| {
            (0..EXTRACTABLE).try_for_each(|_| {
                let module = extractable::module(&mut comparison.random);
                comparison.hold_module(&module)
            })
        });
    }

    fn nearly_full(&mut self) {
        self.group("about 4,096 nodes", |comparison| {
            (0..NEARLY_FULL).try_for_each(|_| {
                let nodes = comparison.random.between(4093, 4098);
                let module = extractable::of_nodes(nodes, &mut comparison.random);
                comparison.hold_module(&module)
            })
        });
    }

    fn refused(&mut self, aim: u8) {
        self.group(&format!("refused modules, aimed at {aim}"), |comparison| {
            (0..REFUSED).try_for_each(|_| {
                let module = refused::module(aim, &mut comparison.random);
                comparison.hold(&encode(&module))
            })
        });
    }

    fn not_read(&mut self) {
        self.group("sheets that aren't read", |comparison| {
            let samples = limits::groups().into_iter().flat_map(|group| group.1);
            samples.into_iter().try_for_each(|sample| comparison.hold(&sample.sheet))
        });
    }

    /// Every number was met.
    fn numbers(&mut self) {
        let nodes = ["to 99", "to 999", "to 3999", "to 4095", "4096"];
        println!("extractable modules by nodes");
        for (name, count) in nodes.iter().zip(self.sizes) {
            println!("  {name:<20}{count:>10}");
        }
        println!("numbers met{:>12}{:>10}{:>10}", "extract", "cycle", "cycles");
        let read = read_numbers().into_iter().map(usize::from);
        let own = [0].into_iter().chain(read).chain(12..=21).chain([23, 24, 25, 31]);
        let mut missing = Vec::new();
        for number in own {
            let Holding { extractions, cycles, many, .. } = &self.holding;
            let counts = [extractions[number], cycles[number], many[number]];
            println!("  {number:<10}{:>11}{:>10}{:>10}", counts[0], counts[1], counts[2]);
            let extracts = ![24, 25, 31].contains(&number);
            if (extracts && counts[0] == 0) || counts[1] == 0 || counts[2] == 0 {
                missing.push(number.to_string());
            }
        }
        self.group("every number", |_| match missing.is_empty() {
            true => Ok(()),
            false => Err(format!("never met: {}", missing.join(", "))),
        });
    }

    // ---- one sheet

    fn hold_module(&mut self, module: &Module) -> Outcome {
        if let Ok(extraction) = extract(module) {
            let class = match extraction.nodes.len() {
                0..=99 => 0,
                100..=999 => 1,
                1000..=3999 => 2,
                4000..=4095 => 3,
                _ => 4,
            };
            self.sizes[class] += 1;
        }
        self.hold(&encode(module))
    }

    fn hold(&mut self, sheet: &[u8]) -> Outcome {
        let Comparison { holding, random, .. } = self;
        let outcome = hold(holding, sheet, random);
        outcome.map_err(|difference| format!("{difference}\n{}", to_hex(sheet)))
    }
}

#[cfg(feature = "proved")]
fn hold(holding: &mut Holding, sheet: &[u8], random: &mut Random) -> Outcome {
    holding.hold(sheet, &reference::library::Library { sheet }, random)
}

#[cfg(not(feature = "proved"))]
fn hold(holding: &mut Holding, sheet: &[u8], random: &mut Random) -> Outcome {
    let reading = reference::sheet::read(sheet);
    holding.hold(sheet, &reference::calls::Reference::new(&reading), random)
}
