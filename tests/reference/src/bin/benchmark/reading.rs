//! Verilog text read beside Icarus: texts as long as one may be, to a sheet here and by `iverilog -t null` there, less a run on a module
//! with nothing in it.

use std::fmt::Write;
use std::fs;
use std::hint::black_box;
use std::path::Path;

use reference::icarus::run;
use reference::library;
use reference::text::{LENT, MOST_TEXT};

use crate::clock;
use crate::icarus::folder;

/// How many times a text is read to be timed.
const READINGS: u32 = 200;

/// A text's seconds, one for each repeat.
pub struct Read {
    pub name: &'static str,
    pub ours: Vec<f64>,
    pub icarus: Vec<f64>,
}

pub fn measured(repeats: usize) -> Result<Vec<Read>, String> {
    let texts =
        [("statements", text("")), ("half comments", text("    // as the line above\n"))];
    texts.into_iter().map(|(name, text)| one(name, &text, repeats)).collect()
}

fn one(name: &'static str, text: &str, repeats: usize) -> Result<Read, String> {
    let folder = folder("reading", name)?;
    let write = |file: &str, text: &str| {
        fs::write(folder.join(file), text).map_err(|e| format!("{file}: {e}"))
    };
    write("text.v", text)?;
    write("empty.v", "module reading (i0); input i0; endmodule\n")?;
    let mut read = Read { name, ours: Vec::new(), icarus: Vec::new() };
    for _ in 0..repeats {
        read.ours.push(ours(text.as_bytes())?);
        read.icarus.push(icarus(&folder, "text.v")? - icarus(&folder, "empty.v")?);
    }
    Ok(read)
}

fn ours(text: &[u8]) -> Result<f64, String> {
    let mut lent = [0; LENT];
    let mut number = 0;
    let (_, seconds) = clock::of_call(|| {
        for _ in 0..READINGS {
            number |= library::read_text(black_box(text), &mut lent).number;
        }
    });
    match number {
        0 => Ok(seconds / f64::from(READINGS)),
        _ => Err(format!("the text is refused with {number}")),
    }
}

fn icarus(folder: &Path, file: &str) -> Result<f64, String> {
    let call = || run(folder, "iverilog", &["-g2005", "-t", "null", file]);
    let (out, seconds) = clock::of_children(call);
    out.map(|_| seconds)
}

/// A module of 60 names and eight threads, written out line by line with something between the lines, up to the longest text; a comment
/// fills it up.
fn text(between: &str) -> String {
    let names = |letter: char, count: usize| {
        (0..count).map(|k| format!("{letter}{k}")).collect::<Vec<_>>().join(", ")
    };
    let mut text = format!("module reading ({});\n  input i0;\n", names('i', 8));
    for k in 1..8 {
        writeln!(text, "  input [7:0] i{k};").expect("text");
    }
    writeln!(text, "  reg [7:0] {};\n  wire [7:0] {};", names('r', 32), names('w', 20))
        .expect("text");
    for k in 0..20 {
        writeln!(text, "  assign w{k} = (r{k} + i{}) ^ (r{} & 8'd{k});", k % 7 + 1, k + 7)
            .expect("text");
    }
    let per_block = (MOST_TEXT - text.len() - 900) / (16 * (line(0).len() + between.len()));
    for thread in 0..8 {
        text.push_str("  always @(posedge i0) begin\n");
        for block in 0..2 {
            text.push_str("    begin\n");
            for k in 0..per_block {
                text.push_str(&line(thread * 97 + block * 41 + k));
                text.push_str(between);
            }
            text.push_str("    end\n");
        }
        text.push_str("  end\n");
    }
    text.push_str("endmodule\n");
    let rest = MOST_TEXT - text.len();
    text + "// " + &"-".repeat(rest - 3)
}

fn line(k: usize) -> String {
    format!(
        "      r{:<2} <= (r{:<2} + i{}) & w{:<2};\n",
        k % 32,
        (k + 5) % 32,
        k % 7 + 1,
        k % 20
    )
}
