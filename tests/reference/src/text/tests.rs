use super::*;
use crate::encode::encode;
use crate::functions::With;
use crate::generate;
use crate::random::Random;
use crate::text::{random as texts, vectors};
use crate::verilog;

fn read(text: &[u8]) -> (Answer, Vec<u8>) {
    let mut lent = vec![0xAA; LENT];
    let answer = read_text(text, &mut lent);
    (answer, lent)
}

fn number(text: &str) -> u8 {
    read(text.as_bytes()).0.number
}

/// A module with these items.
fn with(items: &str) -> String {
    format!("module m (clk); input clk; reg [7:0] a, b; {items} endmodule")
}

#[test]
fn the_vectors_are_met() {
    deep(256 << 20, || {
        for (line, vector) in vectors::all().iter().enumerate() {
            let mut lent = vec![0xAA; vector.lent];
            let answer = read_text(&vector.text, &mut lent);
            assert_eq!(
                (answer.number, answer.length),
                (vector.number, vector.sheet.len()),
                "vector {line}"
            );
            assert_eq!(&lent[..answer.length], vector.sheet, "vector {line}");
            let rest = if answer.number == 0 { 0 } else { 0xAA };
            assert!(lent[answer.length..].iter().all(|byte| *byte == rest), "vector {line}");
        }
    });
}

#[test]
fn a_written_module_is_read_as_it_was_meant() {
    let mut random = Random::new(1);
    let mut accepted = 0;
    for _ in 0..2_000 {
        let module = generate::module_by(With::None, &mut random);
        let text = texts::text(&module, &mut random);
        if text.len() > MOST_TEXT {
            continue;
        }
        let sheet = encode(&texts::meant(&module));
        let (answer, lent) = read(&text);
        match sheet::read(&sheet) {
            Ok(_) => {
                let text = String::from_utf8_lossy(&text);
                assert_eq!((answer.number, answer.length), (0, sheet.len()), "{text}");
                assert_eq!(&lent[..sheet.len()], sheet, "{text}");
                accepted += 1;
            }
            Err(refusal) => assert_eq!(answer.number, refusal.number),
        }
    }
    assert!(accepted > 1_000);
}

#[test]
fn a_printed_module_is_read_back() {
    let mut random = Random::new(2);
    let mut accepted = 0;
    for _ in 0..600 {
        let module = generate::module_by(With::None, &mut random);
        let text = verilog::text(&module);
        if text.len() > MOST_TEXT {
            continue;
        }
        let sheet = encode(&texts::meant(&module));
        let (answer, lent) = read(text.as_bytes());
        match sheet::read(&sheet) {
            Ok(_) => {
                assert_eq!((answer.number, answer.length), (0, sheet.len()), "{text}");
                assert_eq!(&lent[..sheet.len()], sheet, "{text}");
                accepted += 1;
            }
            Err(refusal) => assert_eq!(answer.number, refusal.number),
        }
    }
    assert!(accepted > 300);
}

#[test]
fn operators_group_as_table_5_4_has_it() {
    let sheet = |value: &str| {
        let text = with(&format!("always @(posedge clk) a <= {value};"));
        let (answer, lent) = read(text.as_bytes());
        assert_eq!(answer.number, 0, "{value}");
        lent
    };
    for (plain, grouped) in [
        ("a - b - a", "(a - b) - a"),
        ("a | b ^ a & b", "a | (b ^ (a & b))"),
        ("a & b ^ a", "(a & b) ^ a"),
        ("a < b == 1'b1 ? a : b", "((a < b) == 1'b1) ? a : b"),
        ("1'b0 ? a : 1'b1 ? b : a", "1'b0 ? a : (1'b1 ? b : a)"),
        ("~a + b", "(~a) + b"),
        ("a + b == a ? a : b", "((a + b) == a) ? a : b"),
    ] {
        assert_eq!(sheet(plain), sheet(grouped), "{plain}");
    }
}

#[test]
fn an_else_belongs_to_the_nearest_if() {
    let sheet = |statement: &str| {
        let (answer, lent) =
            read(with(&format!("always @(posedge clk) {statement}")).as_bytes());
        assert_eq!(answer.number, 0, "{statement}");
        lent
    };
    let plain = sheet("if (1'b1) if (1'b0) a = b; else b = a;");
    assert_eq!(plain, sheet("if (1'b1) begin if (1'b0) a = b; else b = a; end"));
    assert_ne!(plain, sheet("if (1'b1) begin if (1'b0) a = b; end else b = a;"));
}

#[test]
fn numbers_in_their_order() {
    assert_eq!(read_text(b"", &mut [0; 8191]).number, 23);
    assert_eq!(read(&[b' '; MOST_TEXT + 1]).0.number, 41);
    assert_eq!(read(&[b' '; MOST_TEXT]).0.number, 42);
    for (items, refusal) in [
        ("always a = c; wire", 42),
        ("always a = c;", 43),
        ("reg a; always a = b;", 43),
        ("wire w; always a = b;", 43),
        ("wire w; assign w = clk, w = clk; always a = b;", 43),
        ("assign a = b; always a = b;", 43),
        ("always clk = 1'b0;", 9),
        ("always a = clk;", 8),
        ("always a = 40'd1;", 6),
        ("reg [32:0] c; always a = b;", 4),
        ("", 3),
        ("always begin ; end", 42),
        ("always while (1'b1) ;", 42),
        ("always case (a) 8'd1: ; default: ; default: ; endcase", 42),
        ("always case (a) endcase", 42),
        ("always a = 08'd1;", 42),
        ("always a = 8'bx1;", 42),
        ("output c; always a = b;", 42),
        ("always @(posedge clk) case (a) default a = b; 8'd1: ; endcase", 0),
    ] {
        assert_eq!(number(&with(items)), refusal, "{items}");
    }
}
