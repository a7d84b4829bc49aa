//! Icarus Verilog run on a module, cycle by cycle.

use std::fmt::Write;
use std::fs;
use std::path::Path;
use std::process::Command;

use crate::module::Module;
use crate::trace::After;
use crate::value::Value;

/// A module in Verilog: its name, its clock's port, its text.
pub struct Text<'a> {
    pub name: &'a str,
    pub clock: &'a str,
    pub verilog: String,
}

/// What each cycle comes to in Icarus, from the start on, where all is x; the files lie in the folder.
pub fn trace(
    folder: &Path,
    module: &Module,
    text: &Text,
    rows: &[Vec<Value>],
) -> Result<Vec<After>, String> {
    let write = |name: &str, text: &str| fs::write(folder.join(name), text);
    let written = write("module.v", &text.verilog)
        .and_then(|()| write("bench.v", &test_bench(module, text, rows)));
    written.map_err(|e| format!("{}: {e}", folder.display()))?;
    run(folder, "iverilog", &["-g2005", "-o", "bench.vvp", "bench.v", "module.v"])?;
    let out = run(folder, "vvp", &["-n", "bench.vvp"])?;
    out.lines().map(|line| after(line).ok_or(format!("Icarus prints: {line}"))).collect()
}

/// What a program prints.
pub fn run(folder: &Path, program: &str, arguments: &[&str]) -> Result<String, String> {
    let output = Command::new(program).current_dir(folder).args(arguments).output();
    let output = output.map_err(|e| format!("{program}: {e}"))?;
    match output.status.success() {
        true => String::from_utf8(output.stdout).map_err(|e| format!("{program}: {e}")),
        false => Err(format!("{program}: {}", String::from_utf8_lossy(&output.stderr))),
    }
}

/// A line that the test bench prints.
fn after(line: &str) -> Option<After> {
    let values = |part: &str| part.split_whitespace().map(value).collect();
    let parts: Option<Vec<Vec<Value>>> = line.split('|').map(values).collect();
    let [low, registers, wires] = parts?.try_into().ok()?;
    Some(After { low, registers, wires })
}

/// A value by its digits 0, 1 and x, the highest first.
fn value(digits: &str) -> Option<Value> {
    let mut value = Value::ZERO;
    for digit in digits.chars() {
        let (number, unknown) = match digit {
            '0' => (0, 0),
            '1' => (1, 0),
            'x' => (0, 1),
            _ => return None,
        };
        value =
            Value { number: value.number << 1 | number, unknown: value.unknown << 1 | unknown };
    }
    Some(value)
}

/// The digits of a value.
fn digits(value: Value, width: u8) -> String {
    let digit = |bit: u8| match (value.unknown >> bit & 1, value.number >> bit & 1) {
        (0, 0) => '0',
        (0, _) => '1',
        _ => 'x',
    };
    (0..width).rev().map(digit).collect()
}

/// For each row the clock low with the row's inputs, and the clock high with nothing else changed.
/// Nothing sets a register but the module itself.
fn test_bench(module: &Module, text: &Text, rows: &[Vec<Value>]) -> String {
    let widths = &module.widths;
    let mut bench = String::from("module bench;\n  reg clk;\n");
    let mut ports = format!(".{}(clk)", text.clock);
    for (v, width) in widths.iter().enumerate().take(module.inputs.into()).skip(1) {
        writeln!(bench, "  reg [{}:0] i{v};", width - 1).expect("text");
        write!(ports, ", .i{v}(i{v})").expect("text");
    }
    writeln!(bench, "  {} dut ({ports});\n  initial begin", text.name).expect("text");
    let (registers, wires) =
        (shown('r', module.registers.into()), shown('w', module.wires.len()));
    for row in rows {
        write!(bench, "    #1 clk = 0;").expect("text");
        for (v, &value) in (1..).zip(row) {
            let width = widths[v];
            write!(bench, " i{v} = {width}'b{};", digits(value, width)).expect("text");
        }
        writeln!(bench, "\n    #1 {wires} $write(\"|\"); clk = 1;").expect("text");
        writeln!(bench, "    #1 {registers} $write(\"|\"); {wires} $write(\"\\n\");")
            .expect("text");
    }
    bench.push_str("    $finish;\n  end\nendmodule\n");
    bench
}

/// Writes the variables of a letter, bit by bit.
fn shown(letter: char, count: usize) -> String {
    let names: Vec<String> = (0..count).map(|i| format!("dut.{letter}{i}")).collect();
    match count {
        0 => String::new(),
        _ => format!("$write(\"{}\", {});", vec!["%b"; count].join(" "), names.join(", ")),
    }
}
