//! The time of one call, proved library beside reference implementation.
//! Microseconds, the median of several runs; the text isn't cleared in between.

use std::hint::black_box;
use std::time::Instant;

use reference::library::{self, TEXT};
use reference::{limits, pseudocode, samples, sheet};

const RUNS: usize = 15;
/// How long one run lasts at least, in seconds.
const RUN_TIME: f64 = 0.02;

fn main() {
    println!("{:<10}{:>7}{:>7}{:>27}{:>27}", "", "", "", "read, us", "list, us");
    println!(
        "{:<10}{:>7}{:>7}{:>15}{:>12}{:>15}{:>12}",
        "sheet", "bytes", "lines", "proved", "reference", "proved", "reference"
    );
    for bench in samples::ALL {
        row(bench.name, &bench.sheet());
    }
    row("fullest", &limits::fullest());
}

fn row(name: &str, sheet: &[u8]) {
    let mut text = Box::new([0; TEXT]);
    let lines = pseudocode::print(sheet).lines().count();
    let read_proved = median(|| black_box(library::read(black_box(sheet))));
    let read_reference = median(|| black_box(sheet::read(black_box(sheet))));
    let list_proved = median(|| black_box(library::list(black_box(sheet), &mut text)));
    let list_reference = median(|| black_box(pseudocode::print(black_box(sheet))));
    println!(
        "{name:<10}{:>7}{lines:>7}{read_proved:>15.2}{read_reference:>12.2}{list_proved:>15.2}{list_reference:>12.2}",
        sheet.len()
    );
}

/// Microseconds per call.
fn median<T>(mut call: impl FnMut() -> T) -> f64 {
    let calls = calls_per_run(&mut call);
    let mut times: Vec<f64> =
        (0..RUNS).map(|_| time(calls, &mut call) / calls as f64).collect();
    times.sort_by(f64::total_cmp);
    times[RUNS / 2] * 1e6
}

/// So many calls that a run lasts long enough to be timed.
fn calls_per_run<T>(call: &mut impl FnMut() -> T) -> u32 {
    let mut calls = 1;
    while time(calls, call) < RUN_TIME {
        calls *= 2;
    }
    calls
}

fn time<T>(calls: u32, call: &mut impl FnMut() -> T) -> f64 {
    let start = Instant::now();
    for _ in 0..calls {
        drop(call());
    }
    start.elapsed().as_secs_f64()
}
