//! Each rule that bytes can break, at its border, with its place (document 01, "Turned back for the input").

use notation::decoding::{formula, process, Refusal};

const TRUE: &str = "00 00 00 00 00";

fn bytes(text: &str) -> Vec<u8> {
    text.split_whitespace().map(|pair| u8::from_str_radix(pair, 16).expect("two hexadecimal digits")).collect()
}

/// The rule and the place, or none where the bytes are well-formed.
fn refusal<T>(decoded: Result<T, Refusal>) -> Option<(u32, usize)> {
    decoded.err().map(|refusal| (refusal.rule, refusal.place))
}

fn model(text: &str) -> Option<(u32, usize)> {
    refusal(process(&bytes(text)))
}

fn of_formula(text: &str) -> Option<(u32, usize)> {
    refusal(formula(&bytes(text)))
}

#[test]
fn lengths() {
    assert_eq!(model(&"08 ".repeat(4097)), Some((1, 4096)));
    assert_eq!(of_formula(&"08 ".repeat(4097)), Some((1, 4096)));
    assert_eq!(model(&"00 ".repeat(4096)), Some((8, 1)));
    assert_eq!(model("00 80"), Some((8, 1)));
    assert_eq!(of_formula(&format!("{TRUE} FF")), Some((8, 5)));
    for (text, place) in [("", 0), ("01", 1), ("02 00", 2), ("02 00 80", 3), ("06 00", 2)] {
        assert_eq!(model(text), Some((2, place)), "{text}");
    }
    assert_eq!(of_formula("00 00 00"), Some((2, 3)));
}

#[test]
fn numbers() {
    assert_eq!(model("80 00"), Some((3, 0)));
    assert_eq!(model("01 80 80 01"), Some((3, 1)));
    assert_eq!(model("03 00 FF FF 01 00"), Some((3, 2)));
    assert_eq!(model("03 00 FF 01 00"), None);
    assert_eq!(model("03 00 80 02 00"), None);
    assert_eq!(model("03 00 FF 7F 00"), None);
}

#[test]
fn kinds() {
    assert_eq!(model("08"), Some((4, 0)));
    assert_eq!(model("FF 7F"), Some((4, 0)));
    assert_eq!(model("03 08"), Some((4, 1)));
    assert_eq!(of_formula("06"), Some((4, 0)));
    assert_eq!(of_formula("00 80 01"), Some((4, 1)));
}

#[test]
fn scope() {
    assert_eq!(model("03 01 00 00"), Some((6, 2)));
    assert_eq!(model("05 01 00 00"), Some((6, 2)));
    assert_eq!(model("01 03 01 00 00"), None);
    assert_eq!(model("01 03 01 01 00"), Some((6, 3)));
    assert_eq!(model("06 01 00 03 01 00 00"), Some((6, 5)));
    assert_eq!(of_formula("03 01 00 00 00 00 00 00"), Some((6, 2)));
    assert_eq!(of_formula("03 00 00 00 01 00 01 00"), None);
    assert_eq!(of_formula("04 00 00 00 00 00 01 00 00 00"), Some((6, 7)));
    assert_eq!(of_formula("02 03 00 00 00 01 00 01 00 00 01 00 00 00"), Some((6, 11)));
    assert_eq!(of_formula(&format!("{} 00 01 0F 01 10", "03 00 00 ".repeat(16))), Some((6, 52)));
}

#[test]
fn depth_of_terms() {
    let below = |nodes: usize, term: &str| format!("03 {} {term} 00", "03 ".repeat(nodes));
    assert_eq!(model(&below(7, "00 00")), None);
    assert_eq!(model(&below(8, "00 00")), Some((7, 9)));
    assert_eq!(model(&below(8, "08")), Some((4, 9)));
    assert_eq!(of_formula(&format!("00 00 00 {} 00 00", "04 ".repeat(8))), Some((7, 11)));
}

#[test]
fn depth_of_processes() {
    assert_eq!(model(&format!("{} 00", "07 ".repeat(63))), None);
    assert_eq!(model(&format!("{} 00", "07 ".repeat(64))), Some((7, 64)));
    assert_eq!(model(&format!("{} 02 01 0B 00 00 00", "01 ".repeat(12))), None);
    for binder in ["01 00", "03 00 00 00", "05 FF FF"] {
        assert_eq!(model(&format!("{} {binder}", "01 ".repeat(12))), Some((7, 12)), "{binder}");
    }
}

#[test]
fn depth_of_formulas() {
    assert_eq!(of_formula(&format!("{} {TRUE}", "01 ".repeat(47))), None);
    assert_eq!(of_formula(&format!("{} {TRUE}", "01 ".repeat(48))), Some((7, 48)));
    assert_eq!(of_formula(&format!("{} {TRUE}", "05 ".repeat(16))), None);
    for (step, place) in [("03 00 00", 48), ("04 00 00 00 00", 80), ("05", 16)] {
        assert_eq!(of_formula(&format!("{} {TRUE}", format!("{step} ").repeat(17))), Some((7, place)), "{step}");
    }
    let steps = "05 ".repeat(16);
    assert_eq!(of_formula(&format!("02 {steps} {TRUE} {steps} {TRUE}")), None);
}
