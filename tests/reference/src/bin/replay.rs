//! Runs the script on standard input and prints a line for each record.

use std::io::{self, BufWriter, Read, Write};

fn main() -> io::Result<()> {
    let mut script = Vec::new();
    io::stdin().read_to_end(&mut script)?;
    let mut out = BufWriter::new(io::stdout().lock());
    reference::replay::replay(&script, &mut out)?;
    out.flush()
}
