//! Verilog text: its sheet, its names, and what is refused.

use walbryts::{MOST_TEXT, Sheet, names};

const COUNTER: &str = "module counter (clk, up);
    input clk, up; // the clock is input 0
    wire [7:0] next;
    reg [7:0] count;
    assign next = up ? count + 8'd1 : count - 8'd1;
    always @(posedge clk) count <= next;
endmodule";

#[test]
fn the_sheet_and_the_names() {
    let sheet = Sheet::from_verilog(COUNTER.as_bytes()).unwrap();
    let counts = (sheet.inputs(), sheet.registers(), sheet.wires(), sheet.threads());
    assert_eq!(counts, (2, 1, 1, 1));
    assert_eq!(sheet.widths(), [1, 1, 8, 8]);
    assert_eq!(names(COUNTER.as_bytes()).unwrap(), ["clk", "up", "count", "next"]);
    assert_eq!(Sheet::read(sheet.bytes()).unwrap(), sheet);
}

#[test]
fn refusals() {
    let long = " ".repeat(MOST_TEXT + 1);
    let twice = COUNTER.replace("[7:0] next", "[7:0] up");
    let wide = COUNTER.replace("clk, up; //", "[3:0] clk, up; //");
    let cases =
        [(long.as_str(), 41, 16_384), ("module", 42, 6), (&twice, 43, 84), (&wide, 4, 4)];
    for (text, number, place) in cases {
        let refusal = Sheet::from_verilog(text.as_bytes()).unwrap_err();
        assert_eq!((refusal.number(), refusal.place()), (number, Some(place)));
        let named = names(text.as_bytes()).map_err(|refusal| refusal.number());
        assert_eq!(named.err(), (number > 11).then_some(number));
    }
}

/// A thread of a Rust program has less stack than such texts need.
#[test]
fn deep_texts() {
    let nested = |open: usize, closed: usize| {
        let (open, closed) = ("(".repeat(open), ")".repeat(closed));
        format!("module m (a); input a; reg b; always b = {open}a{closed}; endmodule")
    };
    assert!(Sheet::from_verilog(nested(8_160, 8_160).as_bytes()).is_ok());
    assert_eq!(Sheet::from_verilog(nested(16_300, 0).as_bytes()).unwrap_err().number(), 42);
    assert_eq!(names(nested(8_160, 8_160).as_bytes()).unwrap(), ["a", "b"]);
}
