//! The sheets under tests/data with their listings and their Verilog.

pub struct Bench {
    pub name: &'static str,
    hex: &'static str,
    /// What the listing program prints.
    pub listing: &'static str,
    /// The module in Verilog.
    pub verilog: &'static str,
}

macro_rules! bench {
    ($name:literal) => {
        Bench {
            name: $name,
            hex: include_str!(concat!("../../data/", $name, ".hex")),
            listing: include_str!(concat!("../../data/", $name, ".lst")),
            verilog: include_str!(concat!("../../data/", $name, ".v")),
        }
    };
}

pub const FLIP_FLOP: Bench = bench!("dff");
pub const COUNTER: Bench = bench!("counter");
pub const WATCHDOG: Bench = bench!("watchdog");
pub const PIPE8: Bench = bench!("pipe8");
pub const ALL: [Bench; 4] = [FLIP_FLOP, COUNTER, WATCHDOG, PIPE8];

impl Bench {
    pub fn sheet(&self) -> Vec<u8> {
        from_hex(self.hex)
    }
}

/// Bytes from two hexadecimal digits each, with white space between.
pub fn from_hex(text: &str) -> Vec<u8> {
    let byte = |digits| u8::from_str_radix(digits, 16).expect("two hexadecimal digits");
    text.split_whitespace().map(byte).collect()
}

pub fn to_hex(bytes: &[u8]) -> String {
    bytes.iter().map(|b| format!("{b:02x}")).collect::<Vec<_>>().join(" ")
}
