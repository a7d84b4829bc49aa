//! Random Verilog texts for a second reader (`tests/icarus`).
//!
//! - `texts write SEED FOLDER`: texts of extractable modules that are read, a file each.
//! - `texts print FILE`: the module of a sheet in one of its many ways, drawn by the sheet's bytes,
//!   with the names i0.., r0.., w0...

use std::path::Path;

use reference::functions::With;
use reference::random::Random;
use reference::text::{LENT, deep, random as texts, read_text};
use reference::{extractable, sheet};

const COUNT: usize = 400;
const STACK: usize = 256 << 20;

fn main() {
    let words: Vec<String> = std::env::args().skip(1).collect();
    let words: Vec<&str> = words.iter().map(String::as_str).collect();
    match words[..] {
        ["write", seed, folder] => write(seed.parse().expect("a seed is a number"), folder),
        ["print", file] => print(file),
        _ => panic!("usage: texts write SEED FOLDER | print FILE"),
    }
}

fn write(seed: u64, folder: &str) {
    let accepted = deep(STACK, move || {
        let mut random = Random::new(seed);
        let mut accepted = Vec::new();
        while accepted.len() < COUNT {
            let module = extractable::module_by(With::None, &mut random);
            let text = texts::plain(&module, &mut random);
            let mut lent = vec![0; LENT];
            if read_text(&text, &mut lent).number == 0 {
                accepted.push(text);
            }
        }
        accepted
    });
    for (index, text) in accepted.iter().enumerate() {
        let file = Path::new(folder).join(format!("{index}.v"));
        std::fs::write(file, text).expect("the folder takes files");
    }
}

fn print(file: &str) {
    let bytes = std::fs::read(file).expect("a sheet");
    let seed = bytes.iter().fold(1, |sum: u64, &byte| sum.wrapping_mul(31) + u64::from(byte));
    let text = deep(STACK, move || {
        let module = sheet::read(&bytes).expect("a sheet that is read");
        texts::numbered(&module, &mut Random::new(seed))
    });
    println!("{}", String::from_utf8(text).expect("ASCII"));
}
