//! Values: known, unknown in all bits or in some, and as text.

use walbryts::Value;

const PARTLY: Value = Value { number: 0b0000_0100, unknown: 0b0000_0010 };

#[test]
fn known_and_unknown() {
    assert_eq!(Value::from(7), Value::known(7));
    assert_eq!((Value::known(7).as_known(), PARTLY.as_known()), (Some(7), None));
    assert_eq!(
        [1, 8, 31, 32, 255].map(|width| Value::all_unknown(width).unknown),
        [1, 255, u32::MAX >> 1, u32::MAX, u32::MAX]
    );
    assert!(Value::known(0).is_known() && !Value::all_unknown(1).is_known());
}

#[test]
fn as_a_table_shows_them() {
    for (value, width, text) in [
        (Value::known(0), 1, "0"),
        (Value::known(u32::MAX), 32, "4294967295"),
        (Value::all_unknown(1), 1, "x"),
        (Value::all_unknown(32), 32, "x"),
        (Value::all_unknown(1), 8, "b0000000x"),
        (PARTLY, 3, "b1x0"),
        (PARTLY, 8, "b000001x0"),
        (Value { number: 1, unknown: 1 << 31 }, 32, "bx0000000000000000000000000000001"),
    ] {
        assert_eq!(value.shown(width), text);
    }
}

#[test]
fn without_a_width() {
    assert_eq!(Value::known(12).to_string(), "12");
    assert_eq!(PARTLY.to_string(), "b1x0");
    assert_eq!(Value::all_unknown(3).to_string(), "bxxx");
    assert_eq!(format!("{:>5}|{:<6}|", Value::known(12), PARTLY), "   12|b1x0  |");
}
