//! The checks of [9] and [10] catch misreadings: each is found on random modules.

use reference::calls::Reference;
use reference::encode::encode;
use reference::extractable;
use reference::lively::{self, Kind, Size};
use reference::random::Random;
use reference::sheet::read;
use reference::work::{self, Claim};
use reference::written::{self, Reading};

const MODULES: usize = 100;

/// The clauses that random modules break.
fn broken_work(claim: Claim) -> Vec<String> {
    let mut random = Random::new(9);
    let mut clauses = Vec::new();
    for _ in 0..MODULES {
        let reading = read(&encode(&extractable::module(&mut random)));
        let calls = Reference::new(&reading);
        clauses.extend(work::check(&calls, &reading, claim, 6, &mut random).err());
    }
    clauses
}

#[test]
fn exact_work_finds_each_misreading() {
    assert_eq!(broken_work(Claim::AsStated), [""; 0]);
    for claim in [Claim::SinceAfterTheChange, Claim::LowerWiresLeftOut, Claim::Twice] {
        let clauses = broken_work(claim);
        println!("{claim:?}: {} modules", clauses.len());
        assert!(clauses.iter().any(|clause| clause.contains("stored")), "{claim:?}");
    }
}

fn broken_reading(as_read: Reading) -> Vec<String> {
    let mut random = Random::new(10);
    let mut clauses = Vec::new();
    for _ in 0..MODULES {
        let module = lively::module(Kind::Events, Size::Usual, &mut random);
        let reading = read(&encode(&module));
        let calls = Reference::new(&reading);
        clauses.extend(written::check(&calls, &reading, as_read, 8, &mut random).err());
    }
    clauses
}

const MISREADINGS: [Reading; 4] = [
    Reading::TestedAfterTheBody,
    Reading::SecondPartDropped,
    Reading::LastFirst,
    Reading::LoopOver,
];

#[test]
fn the_thread_as_written_finds_each_misreading() {
    assert_eq!(broken_reading(Reading::AsWritten), [""; 0]);
    for reading in MISREADINGS {
        let clauses = broken_reading(reading);
        println!("{reading:?}: {} modules", clauses.len());
        assert!(clauses.iter().any(|clause| clause.contains("wrote")), "{reading:?}");
    }
}
