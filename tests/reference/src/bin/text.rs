//! Holds the proved reader of Verilog text against the reference implementation and against
//! stored vectors: number, place, length and every lent byte, text by text, and where its variables
//! are declared. `text [SEED]`. A group of texts stops at its first difference and prints it; the
//! status is 0 where no group has one.

use std::process::ExitCode;

use reference::functions::With;
use reference::generate;
use reference::library;
use reference::random::Random;
use reference::text::{Answer, LENT, Labels, MOST_TEXT, VARIABLES};
use reference::text::{deep, labels, random as texts, read_text, vectors};

const VALID: usize = 1_500;
const ILL_TYPED: usize = 500;
const DAMAGED: usize = 4_000;
/// The library runs on a stack of this size, which the C header names.
const STACK: usize = 8 << 20;

fn main() -> ExitCode {
    let seed =
        std::env::args().nth(1).map_or(1, |seed| seed.parse().expect("a seed is a number"));
    let mut met = [0u64; 256];
    let groups: [(&str, Vec<Case>); 5] = [
        ("stored vectors", stored()),
        ("modules as text", modules(seed)),
        ("damaged texts", damaged(seed)),
        ("deep texts and both sides of limits", limits()),
        ("other lent lengths", lent()),
    ];
    let (mut passed, mut failed) = (0, 0);
    for (name, cases) in groups {
        let count = cases.len();
        match hold(cases, &mut met) {
            Ok(()) => {
                passed += 1;
                println!("ok    {name} ({count} texts)");
            }
            Err(difference) => {
                failed += 1;
                println!("FAIL  {name}: {difference}");
            }
        }
    }
    for number in [0, 1, 3, 4, 6, 7, 8, 9, 11, 23, 41, 42, 43] {
        println!("  {number:<4}{:>8}", met[number]);
        if met[number] == 0 {
            failed += 1;
            println!("FAIL  {number} was never met");
        }
    }
    println!("{passed} passed, {failed} failed");
    if failed == 0 { ExitCode::SUCCESS } else { ExitCode::FAILURE }
}

struct Case {
    text: Vec<u8>,
    lent: usize,
    /// Number and sheet, where a third reader has said them.
    expected: Option<(u8, Vec<u8>)>,
}

fn case(text: impl Into<Vec<u8>>) -> Case {
    Case { text: text.into(), lent: LENT, expected: None }
}

/// What a reader makes of a text: its answer, the lent bytes, and the labels.
type Made = (Answer, Vec<u8>, Labels);

/// The two calls of a reader.
struct Reader {
    read: fn(&[u8], &mut [u8]) -> Answer,
    label: fn(&[u8], [u16; VARIABLES], [u16; VARIABLES]) -> Labels,
}

/// What is made of all texts, on a thread with so much stack.
fn made(cases: &[Case], stack: usize, reader: Reader) -> Vec<Made> {
    let texts: Vec<(Vec<u8>, usize)> = cases.iter().map(|c| (c.text.clone(), c.lent)).collect();
    deep(stack, move || {
        let one = |(text, lent): &(Vec<u8>, usize)| {
            let mut bytes = vec![0xAA; *lent];
            let answer = (reader.read)(text, &mut bytes);
            (answer, bytes, (reader.label)(text, [0xAAAA; VARIABLES], [0x5555; VARIABLES]))
        };
        texts.iter().map(one).collect()
    })
}

fn hold(cases: Vec<Case>, met: &mut [u64; 256]) -> Result<(), String> {
    let reference = made(&cases, 256 << 20, Reader { read: read_text, label: labels });
    let library = Reader { read: library::read_text, label: library::labels };
    let proved = made(&cases, STACK, library);
    for ((case, reference), proved) in cases.iter().zip(reference).zip(proved) {
        met[usize::from(reference.0.number)] += 1;
        if reference != proved {
            let text = String::from_utf8_lossy(&case.text);
            return Err(format!(
                "{:?} {:?}, not {:?} {:?}\n{text}",
                proved.0, proved.2, reference.0, reference.2
            ));
        }
        if let Some((number, sheet)) = &case.expected
            && (proved.0.number != *number || proved.1[..proved.0.length] != sheet[..])
        {
            return Err(format!("{:?}, not {number}", proved.0));
        }
    }
    Ok(())
}

fn stored() -> Vec<Case> {
    let vector = |v: vectors::Vector| Case {
        text: v.text,
        lent: v.lent,
        expected: Some((v.number, v.sheet)),
    };
    vectors::all().into_iter().map(vector).collect()
}

fn modules(seed: u64) -> Vec<Case> {
    let mut random = Random::new(seed);
    let mut cases = Vec::new();
    for index in 0..VALID + ILL_TYPED {
        let module = match index < VALID {
            true => generate::module_by(With::None, &mut random),
            false => generate::ill_typed_module_by(With::None, &mut random),
        };
        cases.push(case(texts::text(&module, &mut random)));
    }
    cases
}

fn damaged(seed: u64) -> Vec<Case> {
    let mut random = Random::new(seed ^ 0xDA);
    let mut cases = Vec::new();
    while cases.len() < DAMAGED {
        let module = generate::module_by(With::None, &mut random);
        let text = texts::text(&module, &mut random);
        if text.len() < 3_000 {
            cases.push(case(texts::damaged(&text, &mut random)));
        }
    }
    cases
}

fn with(items: &str) -> String {
    format!("module m (a); input a; reg b; {items} endmodule")
}

fn limits() -> Vec<Case> {
    let mut cases = Vec::new();
    let nested = |before: &str, count: usize, middle: &str, after: &str| {
        with(&format!("always b = {}{middle}{};", before.repeat(count), after.repeat(count)))
    };
    for count in [1, 15, 16, 1000, 8_170] {
        cases.push(case(nested("(", count, "a", ")")));
        cases.push(case(nested("~(", count.min(5_000), "a", ")")));
        cases.push(case(nested("a+", count, "a", "")));
        cases.push(case(nested("a?a:", count.min(4_080), "a", "")));
    }
    for unclosed in ["(", "~(", "a?", "a+("] {
        let text = with(&format!("always b = {}", unclosed.repeat(16_300 / unclosed.len())));
        cases.push(case(&text[..text.len() - " endmodule".len()]));
    }
    for (part, count) in
        [("@a ", 5_400), ("@a", 8_100), ("if(a)", 3_260), ("forever ", 2_000), ("begin ", 60)]
    {
        let ends = if part == "begin " { " end".repeat(count) } else { String::new() };
        for count in [1, 61, 62, 63, 64, count] {
            let ends = if ends.is_empty() { String::new() } else { " end".repeat(count) };
            cases.push(case(with(&format!("always {} b = a;{ends}", part.repeat(count)))));
        }
    }
    for count in [253, 254, 255, 256, 257] {
        cases.push(case(with(&format!("always @(a) begin {} end", "b = a; ".repeat(count)))));
    }
    for count in [1, 8, 9, 255, 256, 300] {
        let terms = vec!["a"; count].join(" or ");
        cases.push(case(with(&format!("always @({terms}) b = a;"))));
        let labels: String = (0..count).map(|n| format!("1'd{n}: b = a; ")).collect();
        cases.push(case(with(&format!("always case (a) {labels} endcase"))));
    }
    let long = vec!["a"; 1_000].join(" ^ ");
    let labels = "1'b0: ; ".repeat(1_000);
    cases.push(case(with(&format!("always case ({long}) {labels} endcase"))));
    for count in [15, 16, 17, 31, 32, 33, 300] {
        for kind in ["input", "reg", "wire"] {
            let names: Vec<String> = (0..count).map(|n| format!("v{n}")).collect();
            let assigns: String = match kind {
                "wire" => names.iter().map(|name| format!("assign {name} = a; ")).collect(),
                _ => String::new(),
            };
            let items = format!("{kind} {}; {assigns} always b = a;", names.join(","));
            cases.push(case(with(&items)));
        }
        cases.push(case(with(&format!("reg [{}:0] c; always b = a;", count - 1))));
        cases.push(case(with(&"always b = a; ".repeat(count))));
    }
    for length in [MOST_TEXT - 1, MOST_TEXT, MOST_TEXT + 1] {
        let mut text = with("always b = a;").into_bytes();
        text.resize(length, b' ');
        cases.push(case(text));
        cases.push(case(vec![b'a'; length]));
        cases.push(case(vec![b';'; length]));
        cases.push(case([b"/*".to_vec(), vec![b'*'; length - 2]].concat()));
    }
    cases
}

fn lent() -> Vec<Case> {
    let lengths = [0, 1, 16, LENT - 1, LENT, LENT + 1];
    let texts = [with("always b = a;"), "module".into(), " ".repeat(MOST_TEXT + 1)];
    let pairs = lengths.iter().flat_map(|lent| texts.iter().map(move |text| (lent, text)));
    pairs.map(|(lent, text)| Case { lent: *lent, ..case(text.clone()) }).collect()
}
