//! Yosys: what registers become, as a netlist.

use std::path::Path;
use std::process::Command;

use reference::samples::Bench;

use crate::clock;
use crate::icarus::folder;

/// The seconds of reading, `proc` and `opt`: those of a run less those of one that does nothing.
/// None where Yosys doesn't take the module, as where a thread has more than one wait.
pub fn seconds(bench: &Bench) -> Result<Option<f64>, String> {
    let folder = folder("yosys", bench.name)?;
    let file = folder.join("module.v");
    std::fs::write(&file, bench.verilog).map_err(|e| format!("{}: {e}", file.display()))?;
    let empty = timed(&folder, "")?;
    let whole = timed(&folder, "read_verilog module.v; proc; opt")?;
    Ok(whole.zip(empty).map(|(whole, empty)| whole - empty))
}

fn timed(folder: &Path, commands: &str) -> Result<Option<f64>, String> {
    let mut command = Command::new("yosys");
    command.current_dir(folder).args(["-q", "-p", commands]);
    let (output, seconds) = clock::of_children(|| command.output());
    let output = output.map_err(|e| format!("yosys: {e}"))?;
    Ok(output.status.success().then_some(seconds))
}
