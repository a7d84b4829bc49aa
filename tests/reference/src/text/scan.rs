//! Tokens, by clause 3: from left to right, each as long as can be.

/// Annex B.
pub const KEYWORDS: &str = "always and assign automatic begin buf bufif0 bufif1 case casex casez \
    cell cmos config deassign default defparam design disable edge else end endcase endconfig \
    endfunction endgenerate endmodule endprimitive endspecify endtable endtask event for force \
    forever fork function generate genvar highz0 highz1 if ifnone incdir include initial inout \
    input instance integer join large liblist library localparam macromodule medium module nand \
    negedge nmos nor noshowcancelled not notif0 notif1 or output parameter pmos posedge \
    primitive pull0 pull1 pulldown pullup pulsestyle_onevent pulsestyle_ondetect rcmos real \
    realtime reg release repeat rnmos rpmos rtran rtranif0 rtranif1 scalared showcancelled \
    signed small specify specparam strong0 strong1 supply0 supply1 table task time tran tranif0 \
    tranif1 tri tri0 tri1 triand trior trireg unsigned use uwire vectored wait wand weak0 weak1 \
    while wire wor xnor xor";

/// Longer signs before shorter ones that they open with. `^~` is a sign of no form here.
const SIGNS: [&str; 21] = [
    "==", "<=", "^~", "(", ")", "[", "]", ":", ";", ",", "@", "=", "<", "?", "~", "!", "&",
    "|", "^", "+", "-",
];

#[derive(Clone, Copy, Debug, PartialEq, Eq)]
pub enum Kind {
    /// A keyword or a sign.
    Fixed,
    Name,
    /// An unsigned number, up to a million; what is more counts as a million.
    Number {
        leading_zero: bool,
        value: u32,
    },
    /// A base and its value modulo 2^32.
    Known(u32),
    Unknown,
    /// What begins no token, or a value that is neither known nor all x. Nothing follows it.
    Broken,
}

#[derive(Clone, Copy, Debug)]
pub struct Token<'a> {
    pub kind: Kind,
    pub place: usize,
    pub spelled: &'a [u8],
}

impl Token<'_> {
    pub fn is(&self, fixed: &str) -> bool {
        self.kind == Kind::Fixed && self.spelled == fixed.as_bytes()
    }
}

pub fn tokens(text: &[u8]) -> Vec<Token<'_>> {
    let mut found: Vec<Token> = Vec::new();
    let mut place = 0;
    loop {
        place += gap(&text[place..]);
        if place == text.len() {
            return found;
        }
        let (kind, size) = first(&text[place..]);
        found.push(Token { kind, place, spelled: &text[place..place + size] });
        if kind == Kind::Broken {
            return found;
        }
        place += size;
    }
}

// ---- gaps

fn is_newline(byte: u8) -> bool {
    byte == b'\n' || byte == b'\r'
}

fn is_space(byte: u8) -> bool {
    matches!(byte, b' ' | b'\t' | 0x0C) || is_newline(byte)
}

/// How many bytes of white space and comments stand in front. A comment that is no comment of
/// the standard, for want of an end or for a byte that isn't ASCII, is left standing.
fn gap(text: &[u8]) -> usize {
    let mut size = 0;
    while let Some(more) = blank(&text[size..]) {
        size += more;
    }
    size
}

fn blank(text: &[u8]) -> Option<usize> {
    match text {
        [byte, ..] if is_space(*byte) => Some(1),
        [b'/', b'/', rest @ ..] => {
            let size = rest.iter().position(|b| is_newline(*b)).unwrap_or(rest.len());
            rest[..size].is_ascii().then_some(size + 2)
        }
        [b'/', b'*', rest @ ..] => {
            let size = rest.windows(2).position(|pair| pair == b"*/")?;
            rest[..size].is_ascii().then_some(size + 4)
        }
        _ => None,
    }
}

// ---- tokens

fn run(text: &[u8], goes_on: impl Fn(u8) -> bool) -> usize {
    text.iter().position(|b| !goes_on(*b)).unwrap_or(text.len())
}

/// The token in front, and its length.
fn first(text: &[u8]) -> (Kind, usize) {
    match text[0] {
        b'a'..=b'z' | b'A'..=b'Z' | b'_' => word(text),
        b'0'..=b'9' => number(text),
        b'\'' => value(text),
        _ => sign(text),
    }
}

fn word(text: &[u8]) -> (Kind, usize) {
    let size = run(text, |b| b.is_ascii_alphanumeric() || b == b'_' || b == b'$');
    let spelled = &text[..size];
    let reserved = KEYWORDS.split(' ').any(|keyword| keyword.as_bytes() == spelled);
    (if reserved { Kind::Fixed } else { Kind::Name }, size)
}

fn number(text: &[u8]) -> (Kind, usize) {
    let size = run(text, |b| b.is_ascii_digit() || b == b'_');
    let digits = text[..size].iter().filter(|b| **b != b'_');
    let value = digits.fold(0, |n, b| (10 * n + u32::from(b - b'0')).min(1_000_000));
    (Kind::Number { leading_zero: text[0] == b'0', value }, size)
}

/// A base behind the ', white space, digits. `?` is a z digit.
fn value(text: &[u8]) -> (Kind, usize) {
    let radix = match text.get(1) {
        Some(b'b' | b'B') => 2,
        Some(b'o' | b'O') => 8,
        Some(b'd' | b'D') => 10,
        Some(b'h' | b'H') => 16,
        _ => return (Kind::Broken, 1),
    };
    let from = 2 + run(&text[2..], is_space);
    let rest = &text[from..];
    let x = |b: u8| b == b'x' || b == b'X';
    let z = |b: u8| matches!(b, b'z' | b'Z' | b'?');
    let numeric = |b: u8| char::from(b).is_digit(radix);
    let size = match (radix, rest.first()) {
        (10, Some(b)) if x(*b) => 1 + run(&rest[1..], |b| b == b'_'),
        (10, _) => run(rest, |b| numeric(b) || b == b'_'),
        _ => run(rest, |b| numeric(b) || x(b) || z(b) || b == b'_'),
    };
    let digits: Vec<u8> = rest[..size].iter().copied().filter(|b| *b != b'_').collect();
    let kind = match rest.first() {
        None | Some(b'_') => Kind::Broken,
        _ if digits.is_empty() => Kind::Broken,
        _ if digits.iter().all(|b| x(*b)) => Kind::Unknown,
        _ if digits.iter().all(|b| numeric(*b)) => Kind::Known(modulo(&digits, radix)),
        _ => Kind::Broken,
    };
    (kind, from + size)
}

fn modulo(digits: &[u8], radix: u32) -> u32 {
    let digit = |b: &u8| char::from(*b).to_digit(radix).expect("a digit of the radix");
    digits.iter().fold(0u32, |n, b| n.wrapping_mul(radix).wrapping_add(digit(b)))
}

fn sign(text: &[u8]) -> (Kind, usize) {
    match SIGNS.iter().find(|sign| text.starts_with(sign.as_bytes())) {
        Some(sign) => (Kind::Fixed, sign.len()),
        None => (Kind::Broken, 0),
    }
}
