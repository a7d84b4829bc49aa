//! The tables.

use std::fmt::Write;

use crate::reading::Read;
use crate::{CYCLES, FEWER, MANY};

/// A text is to be read in less, in seconds.
const AIM: f64 = 5e-3;

/// A module's seconds: of one cycle, of one extraction, of builds, of a million cycles; one for
/// each repeat.
pub struct Measured {
    name: &'static str,
    pub icarus_build: Vec<f64>,
    pub verilator_build: Vec<f64>,
    pub events: Vec<f64>,
    pub icarus: Vec<f64>,
    pub expressions: Vec<f64>,
    pub verilator: Vec<f64>,
    pub extraction: Vec<f64>,
    pub yosys: Vec<f64>,
    pub million_by_events: Vec<f64>,
}

impl Measured {
    pub fn new(name: &'static str) -> Measured {
        Measured {
            name,
            icarus_build: Vec::new(),
            verilator_build: Vec::new(),
            events: Vec::new(),
            icarus: Vec::new(),
            expressions: Vec::new(),
            verilator: Vec::new(),
            extraction: Vec::new(),
            yosys: Vec::new(),
            million_by_events: Vec::new(),
        }
    }

    /// From the sheet: extraction and a million cycles by expressions.
    fn million(&self) -> Vec<f64> {
        self.extraction
            .iter()
            .zip(&self.expressions)
            .map(|(e, c)| e + c * MANY as f64)
            .collect()
    }

    /// From the Verilog: the build and a million cycles.
    fn verilator_million(&self) -> Vec<f64> {
        let pairs = self.verilator_build.iter().zip(&self.verilator);
        pairs.map(|(build, cycle)| build + cycle * MANY as f64).collect()
    }
}

/// All tables in Markdown.
pub fn tables(rows: &[Measured], repeats: usize) -> String {
    let mut text = format!(
        "{} cycles beside Icarus (pipe8: {}), {} beside Verilator; repeats: {repeats}.\n\n",
        grouped(CYCLES as u64),
        grouped(FEWER as u64),
        grouped(MANY as u64)
    );
    events(rows, &mut text);
    expressions(rows, &mut text);
    extraction(rows, &mut text);
    million(rows, &mut text);
    text
}

fn head(text: &mut String, title: &str, columns: &[&str]) {
    writeln!(text, "**{title}**\n\n| {} |", columns.join(" | ")).expect("text");
    writeln!(text, "|{}", "---|".repeat(columns.len())).expect("text");
}

fn line(text: &mut String, cells: &[String]) {
    writeln!(text, "| {} |", cells.join(" | ")).expect("text");
}

fn events(rows: &[Measured], text: &mut String) {
    let columns = ["module", "Walbryts, cycles/s", "Icarus, cycles/s", "ratio", "aim", ""];
    head(text, "Event simulation", &columns);
    for row in rows {
        let ratio = ratio(&row.icarus, &row.events);
        let aim = if row.name == "pipe8" { 50.0 } else { 5.0 };
        let (ours, theirs) = (rate(&row.events), rate(&row.icarus));
        let cells = [row.name.into(), ours, theirs, times(ratio), times(aim), met(ratio, aim)];
        line(text, &cells);
    }
    text.push('\n');
}

fn expressions(rows: &[Measured], text: &mut String) {
    let columns = [
        "module",
        "Walbryts, cycles/s",
        "to Icarus",
        "aim",
        "",
        "Verilator, cycles/s",
        "to Verilator",
        "aim",
        "",
    ];
    head(text, "Cycles by expressions", &columns);
    for row in rows {
        let icarus = ratio(&row.icarus, &row.expressions);
        let verilator = ratio(&row.verilator, &row.expressions);
        let [aim, other] = [("pipe8", 100.0), ("dff", 1.0)]
            .map(|(name, aim)| if row.name == name { Some(aim) } else { None });
        let show = |aim: Option<f64>| aim.map_or(String::new(), times);
        let judge = |ratio, aim: Option<f64>| aim.map_or(String::new(), |aim| met(ratio, aim));
        let cells = [
            row.name.into(),
            rate(&row.expressions),
            times(icarus),
            show(aim),
            judge(icarus, aim),
            rate(&row.verilator),
            times(verilator),
            show(other),
            judge(verilator, other),
        ];
        line(text, &cells);
    }
    text.push('\n');
}

fn extraction(rows: &[Measured], text: &mut String) {
    let columns = [
        "module",
        "extraction, µs",
        "Yosys, µs",
        "ratio",
        "Icarus's build, s",
        "Verilator's build, s",
    ];
    head(text, "Extraction and builds", &columns);
    for row in rows {
        let (theirs, ratio) = match row.yosys.is_empty() {
            true => ("refused".into(), String::new()),
            false => (micro(&row.yosys), times(ratio(&row.yosys, &row.extraction))),
        };
        let [icarus, verilator] = [&row.icarus_build, &row.verilator_build].map(|s| seconds(s));
        line(
            text,
            &[row.name.into(), micro(&row.extraction), theirs, ratio, icarus, verilator],
        );
    }
    text.push('\n');
}

fn million(rows: &[Measured], text: &mut String) {
    let columns = [
        "module",
        "by expressions, s",
        "ratio",
        "by events, s",
        "ratio",
        "Verilator's build and run, s",
        "aim",
        "",
    ];
    head(text, "From the sheet to a million cycles", &columns);
    for row in rows {
        let (expressions, events) = (row.million(), &row.million_by_events);
        let theirs = row.verilator_million();
        let ratios = [ratio(&theirs, &expressions), ratio(&theirs, events)];
        let cells = [
            row.name.into(),
            seconds(&expressions),
            times(ratios[0]),
            seconds(events),
            times(ratios[1]),
            seconds(&theirs),
            times(1.0),
            met(ratios[0].max(ratios[1]), 1.0),
        ];
        line(text, &cells);
    }
}

/// Texts of 16,384 bytes.
pub fn reading(texts: &[Read]) -> String {
    let columns =
        ["text of 16,384 bytes", "Walbryts, µs", "aim, µs", "", "Icarus, µs", "ratio"];
    let mut text = String::from("\n");
    head(&mut text, "Reading of text", &columns);
    for read in texts {
        let cells = [
            read.name.into(),
            micro(&read.ours),
            micro(&[AIM]),
            met(AIM / median(&read.ours), 1.0),
            micro(&read.icarus),
            times(ratio(&read.icarus, &read.ours)),
        ];
        line(&mut text, &cells);
    }
    text
}

// ---- figures

fn median(figures: &[f64]) -> f64 {
    let mut sorted = figures.to_vec();
    sorted.sort_by(f64::total_cmp);
    sorted[sorted.len() / 2]
}

/// The median of the ratios within a repeat: how many times faster the second is.
fn ratio(theirs: &[f64], ours: &[f64]) -> f64 {
    median(&theirs.iter().zip(ours).map(|(theirs, ours)| theirs / ours).collect::<Vec<_>>())
}

/// Cycles in a second.
fn rate(seconds: &[f64]) -> String {
    grouped((1.0 / median(seconds)).round() as u64)
}

fn micro(seconds: &[f64]) -> String {
    grouped((median(seconds) * 1e6).round() as u64)
}

fn seconds(figures: &[f64]) -> String {
    format!("{:.3}", median(figures))
}

fn times(ratio: f64) -> String {
    match ratio {
        r if r >= 100.0 => format!("{r:.0}"),
        r if r >= 10.0 => format!("{r:.1}"),
        r if r >= 0.1 => format!("{r:.2}"),
        r => format!("{r:.4}"),
    }
}

fn met(ratio: f64, aim: f64) -> String {
    if ratio >= aim { "met".into() } else { "missed".into() }
}

/// Digits in groups of three.
fn grouped(number: u64) -> String {
    let digits = number.to_string();
    let mut text = String::new();
    for (index, digit) in digits.chars().enumerate() {
        if index > 0 && (digits.len() - index).is_multiple_of(3) {
            text.push(',');
        }
        text.push(digit);
    }
    text
}
