//! What it ran on.

use std::process::Command;

/// Processor, cores and the other programs' versions.
pub fn description() -> String {
    let cores = std::thread::available_parallelism().map_or(1, usize::from);
    format!(
        "Machine: {}, {cores} cores. {}; {}; {}.\n",
        processor(),
        first_line("iverilog", "-V"),
        first_line("verilator", "--version"),
        first_line("yosys", "-V")
    )
}

fn processor() -> String {
    let text = std::fs::read_to_string("/proc/cpuinfo").unwrap_or_default();
    let name = text.lines().find_map(|line| line.strip_prefix("model name"));
    let name = name.map(|rest| rest.trim_start_matches([' ', '\t', ':']));
    name.unwrap_or("unknown processor").into()
}

fn first_line(program: &str, flag: &str) -> String {
    let output = Command::new(program).arg(flag).output();
    let text = output.map(|output| String::from_utf8_lossy(&output.stdout).into_owned());
    let line = text.ok().and_then(|text| text.lines().next().map(str::to_owned));
    line.map_or(format!("no {program}"), |line| line.trim().trim_end_matches(" ()").into())
}
