//! Verilator: a module compiled to C++ and by the C++ compiler, driven by a loop over the inputs in
//! memory. A module around it has the registers as outputs.

use std::fmt::Write;
use std::fs;
use std::path::PathBuf;
use std::time::Instant;

use reference::extraction::text;
use reference::icarus::run;
use reference::module::Module;
use reference::samples::Bench;

use crate::icarus::folder;

/// A module with its inputs.
pub struct Verilator {
    folder: PathBuf,
    /// `--timing` where a thread has more than one wait.
    timing: &'static str,
}

/// OPT_FAST and OPT_GLOBAL give its C++ the compiler's highest level, which isn't the default.
const FLAGS: [&str; 14] = [
    "--cc",
    "--exe",
    "--build",
    "-j",
    "2",
    "-O3",
    "--x-assign",
    "fast",
    "--x-initial",
    "fast",
    "--noassert",
    "-Wno-fatal",
    "-MAKEFLAGS",
    "OPT_FAST=-O3 OPT_GLOBAL=-O3",
];

impl Verilator {
    pub fn new(bench: &Bench, module: &Module, rows: &[Vec<u32>]) -> Result<Verilator, String> {
        let folder = folder("verilator", bench.name)?;
        let numbers: Vec<u8> = rows.iter().flatten().flat_map(|n| n.to_le_bytes()).collect();
        let write = |name: &str, bytes: &[u8]| {
            fs::write(folder.join(name), bytes).map_err(|e| format!("{name}: {e}"))
        };
        write("module.v", bench.verilog.as_bytes())?;
        write("top.v", around(bench.name, module).as_bytes())?;
        write("main.cpp", program(module, rows.len()).as_bytes())?;
        write("rows.bin", &numbers)?;
        let waits = module.threads.iter().map(|thread| text::waits(thread).len());
        let timing = if waits.max() > Some(1) { "--timing" } else { "--no-timing" };
        Ok(Verilator { folder, timing })
    }

    /// Compiles it from nothing; the seconds.
    pub fn build(&self) -> Result<f64, String> {
        let _ = fs::remove_dir_all(self.folder.join("obj_dir"));
        let names = ["--prefix", "Vdut", "--top-module", "top"];
        let files = ["top.v", "module.v", "main.cpp"];
        let arguments = [&FLAGS[..], &[self.timing], &names, &files].concat();
        let before = Instant::now();
        run(&self.folder, "verilator", &arguments)?;
        Ok(before.elapsed().as_secs_f64())
    }

    /// The registers at the end, and the seconds of the cycles.
    pub fn run(&self) -> Result<(Vec<String>, f64), String> {
        let out = run(&self.folder, "./obj_dir/Vdut", &[])?;
        let mut words = out.split_whitespace();
        let seconds = words.next().and_then(|word| word.parse().ok());
        let seconds = seconds.ok_or(format!("Verilator prints: {out}"))?;
        Ok((words.map(str::to_owned).collect(), seconds))
    }
}

/// A module with the registers as outputs.
fn around(name: &str, module: &Module) -> String {
    let inputs = 1..usize::from(module.inputs);
    let registers = 0..usize::from(module.registers);
    let ports: Vec<String> = inputs.clone().map(|v| format!("i{v}")).collect();
    let outputs: Vec<String> = registers.clone().map(|r| format!("r{r}")).collect();
    let mut text = format!(
        "module top (clk, {}, {});\n  input clk;\n",
        ports.join(", "),
        outputs.join(", ")
    );
    let mut lent = String::from(".clk(clk)");
    for v in inputs {
        writeln!(text, "  input [{}:0] i{v};", module.widths[v] - 1).expect("text");
        write!(lent, ", .i{v}(i{v})").expect("text");
    }
    writeln!(text, "  {name} dut ({lent});").expect("text");
    for r in registers {
        let width = module.widths[usize::from(module.inputs) + r];
        writeln!(text, "  output [{}:0] r{r};\n  assign r{r} = dut.r{r};", width - 1)
            .expect("text");
    }
    text.push_str("endmodule\n");
    text
}

/// Reads the inputs, runs the cycles, prints their seconds and the registers.
fn program(module: &Module, rows: usize) -> String {
    let inputs = usize::from(module.inputs) - 1;
    let mut set = String::new();
    for v in 1..=inputs {
        writeln!(set, "    d.i{v} = p[{}];", v - 1).expect("text");
    }
    let mut show = String::new();
    for r in 0..module.registers {
        writeln!(show, "  std::printf(\" %u\", (unsigned)d.r{r});").expect("text");
    }
    format!(
        "#include \"Vdut.h\"
#include \"verilated.h\"
#include <cstdint>
#include <cstdio>
#include <ctime>
#include <vector>
int main() {{
  std::vector<uint32_t> rows({inputs}ul * {rows});
  FILE *file = std::fopen(\"rows.bin\", \"rb\");
  if (!file || std::fread(rows.data(), 4, rows.size(), file) != rows.size()) return 1;
  VerilatedContext context;
  Vdut d{{&context}};
  const uint32_t *p = rows.data();
  std::clock_t before = std::clock();
  for (long cycle = 0; cycle < {rows}; cycle++, p += {inputs}) {{
{set}    d.clk = 0;
    d.eval();
    d.clk = 1;
    d.eval();
  }}
  std::printf(\"%.6f\", double(std::clock() - before) / CLOCKS_PER_SEC);
{show}  std::printf(\"\\n\");
  return 0;
}}
"
    )
}
