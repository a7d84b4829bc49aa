//! A printer of Verilog held against this package's.

use std::fs;
use std::path::Path;
use std::process::{Command, Output};

use reference::encode::encode;
use reference::random::Random;
use reference::{generate, samples, sheet, stimulus, verilog};

use crate::{Outcome, SEED, folder, stored};

const ROOT: &str = concat!(env!("CARGO_MANIFEST_DIR"), "/../..");
/// The proved program's command, and how many random modules it prints.
const PRINTER: &str = "./walbryts verilog";
const PRINTED: usize = 600;
/// The length from which on a text needn't be printed, and how the command ends what it says then.
const LONG: usize = 65_536;
const TOO_LONG: &str = ": its Verilog is 65,536 bytes or longer\n";

/// How many texts differ.
pub fn hold() -> Outcome<usize> {
    let command = std::env::var("WALBRYTS_VERILOG").unwrap_or(PRINTER.into());
    let folder = folder()?;
    let mut random = Random::new(SEED);
    let mut sheets: Vec<Vec<u8>> = stored()?.into_iter().map(|trace| trace.sheet).collect();
    sheets.extend((0..PRINTED).map(|_| encode(&generate::module(&mut random))));
    sheets.push(encode(&stimulus::deep_module()));
    let (mut passed, mut failed) = (0, 0);
    for sheet in &sheets {
        match held(&folder, &command, sheet) {
            None => passed += 1,
            Some(difference) => {
                failed += 1;
                println!("FAIL  {difference}\n{}", samples::to_hex(sheet));
            }
        }
        if failed == 5 {
            break;
        }
    }
    println!("{passed} passed, {failed} failed");
    Ok(failed)
}

/// What differs. Of a text that is long, all is printed, or the command says so: status 1, nothing on
/// standard output, and why on standard error. A part of the text would be wrong, and a crash says
/// nothing.
fn held(folder: &Path, command: &str, sheet: &[u8]) -> Option<String> {
    let expected = verilog::text(&sheet::read(sheet).expect("a sheet that is read"));
    let output = match output(folder, command, sheet) {
        Ok(output) => output,
        Err(error) => return Some(error),
    };
    let (out, error) = (text_of(&output.stdout), text_of(&output.stderr));
    let unsaid = out.is_empty() && expected.len() >= LONG && error.ends_with(TOO_LONG);
    match output.status.code() {
        Some(0) => differ(&out, &expected),
        Some(1) if unsaid => None,
        status => Some(format!("status {status:?}, {} bytes, {error}", out.len())),
    }
}

/// The first line that differs.
fn differ(found: &str, expected: &str) -> Option<String> {
    let mut pairs = found.split('\n').zip(expected.split('\n')).enumerate();
    let line = pairs.find(|(_, (found, expected))| found != expected);
    let line = line.map(|(n, (found, expected))| format!("line {n}: {found}, not {expected}"));
    let lengths = || format!("{} bytes, not {}", found.len(), expected.len());
    (found != expected).then(|| line.unwrap_or_else(lengths))
}

/// This package's text.
pub fn print(file: &str) -> Outcome<usize> {
    let bytes = fs::read(file).map_err(|e| format!("{file}: {e}"))?;
    let module =
        sheet::read_with_functions(&bytes).map_err(|refusal| format!("{file}: {refusal:?}"))?;
    print!("{}", verilog::text(&module));
    Ok(0)
}

/// What the command prints for the sheet.
pub fn printed(folder: &Path, command: &str, sheet: &[u8]) -> Outcome<String> {
    let output = output(folder, command, sheet)?;
    match output.status.success() {
        true => Ok(text_of(&output.stdout)),
        false => Err(format!("{command}: {}", text_of(&output.stderr))),
    }
}

fn output(folder: &Path, command: &str, sheet: &[u8]) -> Outcome<Output> {
    let file = folder.join("sheet");
    fs::write(&file, sheet).map_err(|e| format!("{}: {e}", file.display()))?;
    let line = format!("{command} \"$1\"");
    let shell =
        Command::new("sh").current_dir(ROOT).args(["-c", &line, "sh"]).arg(&file).output();
    shell.map_err(|e| format!("{command}: {e}"))
}

fn text_of(bytes: &[u8]) -> String {
    String::from_utf8_lossy(bytes).into_owned()
}
