//! Stored texts with what an independent reader makes of them: tests/data/text.vectors, a line
//! each: the length of the lent bytes, number, length, the sheet and the text in hexadecimal,
//! `-` where there is none.

pub struct Vector {
    pub lent: usize,
    pub number: u8,
    pub sheet: Vec<u8>,
    pub text: Vec<u8>,
}

pub fn all() -> Vec<Vector> {
    let lines = include_str!("../../../data/text.vectors").lines();
    lines.filter(|line| !line.starts_with('#')).map(vector).collect()
}

fn vector(line: &str) -> Vector {
    let fields: Vec<&str> = line.split(' ').collect();
    let [lent, number, length, sheet, text] = fields[..] else { panic!("five fields: {line}") };
    let sheet = bytes(sheet);
    assert_eq!(length.parse(), Ok(sheet.len()));
    let number = number.parse().expect("a number");
    Vector { lent: lent.parse().expect("a length"), number, sheet, text: bytes(text) }
}

fn bytes(field: &str) -> Vec<u8> {
    let byte = |at| u8::from_str_radix(&field[at..at + 2], 16).expect("two hexadecimal digits");
    if field == "-" { Vec::new() } else { (0..field.len()).step_by(2).map(byte).collect() }
}
