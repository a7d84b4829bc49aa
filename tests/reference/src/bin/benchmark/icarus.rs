//! Icarus Verilog.

use std::fmt::Write;
use std::fs;
use std::path::PathBuf;
use std::time::Instant;

use reference::icarus::run;
use reference::module::Module;
use reference::samples::Bench;

use crate::clock;

/// A module with its test bench and inputs.
pub struct Icarus {
    folder: PathBuf,
    cycles: usize,
}

impl Icarus {
    pub fn new(bench: &Bench, module: &Module, rows: &[Vec<u32>]) -> Result<Icarus, String> {
        let folder = folder("icarus", bench.name)?;
        let write = |name: &str, text: &str| {
            fs::write(folder.join(name), text).map_err(|e| format!("{name}: {e}"))
        };
        write("module.v", bench.verilog)?;
        write("bench.v", &test_bench(bench.name, module, rows.len()))?;
        write("rows.hex", &packed(module, rows))?;
        Ok(Icarus { folder, cycles: rows.len() })
    }

    /// Compiles it; the seconds.
    pub fn build(&self) -> Result<f64, String> {
        let before = Instant::now();
        run(&self.folder, "iverilog", &["-o", "bench.vvp", "bench.v", "module.v"])?;
        Ok(before.elapsed().as_secs_f64())
    }

    /// Registers and wires at the end, and the seconds of the cycles: those of a run less those of
    /// one that loads the inputs and ends.
    pub fn run(&self) -> Result<(Vec<String>, f64), String> {
        let (_, empty) = self.timed(0)?;
        let (out, whole) = self.timed(self.cycles)?;
        Ok((out.split_whitespace().map(str::to_owned).collect(), whole - empty))
    }

    fn timed(&self, cycles: usize) -> Result<(String, f64), String> {
        let arguments = ["-n", "bench.vvp", &format!("+cycles={cycles}")];
        let (out, seconds) = clock::of_children(|| run(&self.folder, "vvp", &arguments));
        Ok((out?, seconds))
    }
}

/// A folder under target, emptied.
pub fn folder(tool: &str, name: &str) -> Result<PathBuf, String> {
    let target = std::env::var("CARGO_TARGET_DIR").map_or(std::env::temp_dir(), PathBuf::from);
    let folder = target.join("benchmark").join(format!("{tool}-{name}"));
    let _ = fs::remove_dir_all(&folder);
    fs::create_dir_all(&folder).map_err(|e| format!("{}: {e}", folder.display()))?;
    Ok(folder)
}

/// The inputs from 1 up and their widths.
fn inputs(module: &Module) -> impl DoubleEndedIterator<Item = (usize, u8)> {
    (1..module.inputs.into()).map(|v| (v, module.widths[v]))
}

/// One line of hexadecimal digits a row, the first input lowest.
fn packed(module: &Module, rows: &[Vec<u32>]) -> String {
    let mut text = String::new();
    for row in rows {
        let mut word: u128 = 0;
        for (v, width) in inputs(module).rev() {
            word = (word << width) | u128::from(row[v - 1]);
        }
        writeln!(text, "{word:x}").expect("text");
    }
    text
}

fn test_bench(name: &str, module: &Module, rows: usize) -> String {
    let width: usize = inputs(module).map(|(_, width)| usize::from(width)).sum();
    let mut at = 0;
    let mut ports = String::new();
    for (v, width) in inputs(module) {
        write!(ports, ", .i{v}(row[{}:{at}])", at + usize::from(width) - 1).expect("text");
        at += usize::from(width);
    }
    let registers = (0..module.registers).map(|r| format!("dut.r{r}"));
    let wires = (0..module.wires.len()).map(|w| format!("dut.w{w}"));
    let shown: Vec<String> = registers.chain(wires).collect();
    let format = vec!["%0d"; shown.len()].join(" ");
    format!(
        "module bench;
  reg clk;
  reg [{top}:0] rows [0:{last}];
  reg [{top}:0] row;
  integer i, cycles;
  {name} dut (.clk(clk){ports});
  initial begin
    $readmemh(\"rows.hex\", rows);
    if (!$value$plusargs(\"cycles=%d\", cycles)) cycles = 0;
    for (i = 0; i < cycles; i = i + 1) begin
      row = rows[i];
      clk = 0;
      #1;
      clk = 1;
      #1;
    end
    $display(\"{format}\", {shown});
    $finish;
  end
endmodule
",
        top = width - 1,
        last = rows - 1,
        shown = shown.join(", ")
    )
}
