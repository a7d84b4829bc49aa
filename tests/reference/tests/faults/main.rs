//! The checks of demand 3 and of extraction catch what document 01 wants shut out: each fault,
//! planted in a copy of the calls, is found.

mod faulty;

use reference::calls::Reference;
use reference::encode::encode;
use reference::extractable;
use reference::holding::Holding;
use reference::order::check;
use reference::random::Random;
use reference::sheet::read;

use faulty::{Fault, Faulty};

/// Each fault with the clause that it breaks.
const FAULTS: [(Fault, &str); 16] = [
    (Fault::ConditionalForBranch, "cycle run"),
    (Fault::WiresAfterRiseOnly, "quiet: v"),
    (Fault::CommitByThread, "quiet: v"),
    (Fault::IdleAfterFirstCycle, "quiet: places"),
    (Fault::NothingRun, "time and counts"),
    (Fault::SameTable, "cycle run"),
    (Fault::IdleCycleRun, "cycle run"),
    (Fault::RefusingEverything, "extraction is refused"),
    (Fault::RefusingToRun, "not quiet, but choice"),
    (Fault::MadeUpCount, "time and counts"),
    (Fault::EarlySpent, "says Spent"),
    (Fault::EarlyQuiet, "says Quiet"),
    (Fault::CountedForTheFirst, "time and counts"),
    (Fault::OneMore, "not quiet, but choice"),
    (Fault::UnknownAsAWhole, "quiet: v"),
    (Fault::UnknownAsAWholeInCycles, "cycle run"),
];

/// The clauses of demand 3 that random modules break.
fn broken(fault: Fault) -> Vec<String> {
    let mut random = Random::new(77);
    let mut clauses = Vec::new();
    for _ in 0..60 {
        let reading = read(&encode(&extractable::module(&mut random)));
        let module = reading.as_ref().expect("made");
        let faulty = Faulty { calls: Reference::new(&reading), module, fault };
        clauses.extend(check(&faulty, &reading, 6, &mut random).err());
    }
    clauses
}

#[test]
fn demand_3_finds_each_fault() {
    assert_eq!(broken(Fault::None), [""; 0]);
    for (fault, expected) in FAULTS {
        let clauses = broken(fault);
        let fitting = clauses.iter().filter(|clause| clause.contains(expected)).count();
        println!("{fault:?}: {fitting} of {} say {expected}", clauses.len());
        assert!(fitting > 0, "{fault:?}: {clauses:?}");
    }
}

/// Words and lanes that differ are found by the comparison.
#[test]
fn extraction_finds_faults() {
    for (fault, differs) in [
        (Fault::None, false),
        (Fault::ConditionalForBranch, true),
        (Fault::SameTable, true),
        (Fault::IdleCycleRun, true),
        (Fault::UnknownAsAWholeInCycles, true),
        (Fault::RefusingEverything, true),
    ] {
        let mut random = Random::new(78);
        let mut holding = Holding::default();
        let mut broken = 0;
        for _ in 0..40 {
            let sheet = encode(&extractable::module(&mut random));
            let reading = read(&sheet);
            let module = reading.as_ref().expect("made");
            let faulty = Faulty { calls: Reference::new(&reading), module, fault };
            broken += usize::from(holding.hold(&sheet, &faulty, &mut random).is_err());
        }
        assert_eq!(broken > 0, differs, "{fault:?}");
    }
}
