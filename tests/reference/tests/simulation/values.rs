//! Operators, conditions and edges.

use reference::module::{Edge, Operator};
use reference::value::{Value, apply, fires, mask};

/// Document 01: width 4, 15 + 1 = 0 and 0 - 1 = 15.
#[test]
fn sums_wrap_at_the_width() {
    assert_eq!(apply(Operator::Add, 4, &[Value::known(15), Value::known(1)]), Value::known(0));
    assert_eq!(
        apply(Operator::Subtract, 4, &[Value::known(0), Value::known(1)]),
        Value::known(15)
    );
}

/// Document 01's sample as request [4] has it: 8-bit x & 0 is 0.
#[test]
fn unknown_and_zero() {
    let both = |a, b| apply(Operator::And, 8, &[a, b]);
    assert_eq!(both(Value::x(8), Value::known(0)), Value::known(0));
    assert_eq!(both(Value::x(8), Value::known(0xF0)), Value { number: 0, unknown: 0xF0 });
}

/// Each operator on all pairs of some numbers, at all widths, against wide numbers.
#[test]
fn operators_at_every_width() {
    for width in 1..=32 {
        let most = mask(width);
        assert_eq!(u64::from(most), (1 << width) - 1);
        let numbers = [0, 1, 2, 3, 5, most / 2, most / 2 + 1, most - 1, most].map(|n| n & most);
        let modulus = 1u64 << width;
        for a in numbers {
            let one = |operator| apply(operator, width, &[Value::known(a)]);
            let [wide_a, wide_most] = [a, most].map(u64::from);
            assert_eq!(one(Operator::Invert), known(wide_most - wide_a));
            assert_eq!(one(Operator::Not), known(u64::from(a == 0)));
            for b in numbers {
                let two =
                    |operator| apply(operator, width, &[Value::known(a), Value::known(b)]);
                let wide_b = u64::from(b);
                assert_eq!(two(Operator::Add), known((wide_a + wide_b) % modulus));
                assert_eq!(
                    two(Operator::Subtract),
                    known((wide_a + modulus - wide_b) % modulus)
                );
                assert_eq!(two(Operator::Equal), known(u64::from(a == b)));
                assert_eq!(two(Operator::Less), known(u64::from(a < b)));
                assert_eq!(two(Operator::And), known(wide_a & wide_b));
                assert_eq!(two(Operator::Or), known(wide_a | wide_b));
                assert_eq!(two(Operator::Xor), known(wide_a ^ wide_b));
            }
        }
    }
}

fn known(number: u64) -> Value {
    Value::known(u32::try_from(number).expect("at most 32 bits"))
}

/// Document 01: an if on 2 holds, on x it fails.
#[test]
fn conditions() {
    let half = |number, unknown| Value { number, unknown };
    let values = [Value::x(2), half(0, 1), half(1, 2), half(2, 1)];
    assert_eq!(values.map(Value::holds), [false, false, true, true]);
    assert_eq!([0, 1, 2].map(|n| Value::known(n).holds()), [false, true, true]);
}

/// Document 01: x to 1 fires posedge; 1 to 1 doesn't. Document 02, request [2]: 0 to x does. And all others.
#[test]
fn edges() {
    let values = [Value::known(0), Value::known(1), Value::x(1)];
    let chart = |edge| values.map(|before| values.map(|now| fires(edge, before, now)));
    let (yes, no) = (true, false);
    assert_eq!(chart(Edge::Any), [[no, yes, yes], [yes, no, yes], [yes, yes, no]]);
    assert_eq!(chart(Edge::Posedge), [[no, yes, yes], [no, no, no], [no, yes, no]]);
    assert_eq!(chart(Edge::Negedge), [[no, no, no], [yes, no, yes], [yes, no, no]]);
}
