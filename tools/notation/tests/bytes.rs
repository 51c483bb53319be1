//! The bytes of trees.

mod support;

use notation::slice::number;
use notation::tree::Sort;
use support::{finding, hexadecimal};

fn process_bytes(text: &str) -> String {
    hexadecimal(&finding(&format!("first\n{text}\nsecond nil formula true")).slices[0].bytes)
}

fn formula_bytes(text: &str) -> String {
    hexadecimal(&finding(&format!("first nil second nil formula\n{text}")).slices[2].bytes)
}

#[test]
fn numbers() {
    for (value, bytes) in [
        (0, vec![0]),
        (127, vec![127]),
        (128, vec![0x80, 1]),
        (255, vec![0xff, 1]),
        (256, vec![0x80, 2]),
        (16_383, vec![0xff, 0x7f]),
    ] {
        assert_eq!(number(value), bytes);
    }
}

#[test]
fn kinds_of_processes_and_terms() {
    for (text, bytes) in [
        ("nil", "00"),
        ("new x. nil", "01 00"),
        ("out(0, 255)", "02 00 00 00 ff 01 00"),
        ("out(256, 16383)", "02 00 80 02 00 ff 7f 00"),
        ("in(9, x). out(x, x)", "03 00 09 02 01 00 01 00 00"),
        ("if fst(1) = snd(2) then new x. nil else nil", "04 03 00 01 04 00 02 01 00 00"),
        ("let x = pair(1, 2) in nil", "05 02 00 01 00 02 00"),
        ("nil | repl nil", "06 00 07 00"),
        ("out(enc(1, 2), dec(3, mac(4, 5)))", "02 05 00 01 00 02 06 00 03 07 00 04 00 05 00"),
    ] {
        assert_eq!(process_bytes(text), bytes, "{text}");
    }
}

#[test]
fn kinds_of_formulas() {
    for (text, bytes) in [
        ("1 = 2", "00 00 01 00 02"),
        ("not true", "01 00 00 00 00 00"),
        ("true and 1 = 1", "02 00 00 00 00 00 00 00 01 00 01"),
        ("<out 1 x> x = 2", "03 00 01 00 01 00 00 02"),
        ("<in 1 2> true", "04 00 01 00 02 00 00 00 00 00"),
        ("<tau> true", "05 00 00 00 00 00"),
        ("not <out 0 x> true", "01 03 00 00 00 00 00 00 00"),
    ] {
        assert_eq!(formula_bytes(text), bytes, "{text}");
    }
}

/// Each node stands in the bytes at its offset, and in the text at its place; those of an abbreviation where that stands.
#[test]
fn nodes_know_where_they_come_from() {
    let read =
        finding("A = out(0, x)\nfirst\n  new x. A |\n  in(200, y). out(0, y)\nsecond nil formula <out 0 z> z = 1");
    let nodes = &read.slices[0].nodes;
    let told: Vec<String> = nodes.iter().map(|node| format!("{} {}", node.offset, node.place)).collect();
    let expected = [
        (0, 3, 3),
        (1, 3, 3),
        (2, 1, 5),
        (3, 1, 9),
        (5, 1, 12),
        (7, 2, 1),
        (8, 4, 3),
        (9, 4, 6),
        (12, 4, 15),
        (13, 4, 19),
        (15, 4, 22),
        (17, 5, 1),
    ];
    let expected = expected.map(|(offset, line, column)| format!("{offset} line {line}, column {column}"));
    assert_eq!(told, expected);
    let words: Vec<&str> = nodes.iter().filter_map(|node| node.word.as_deref()).collect();
    assert_eq!(words, ["x", "y"]);
    assert_eq!(nodes.iter().filter(|node| node.sort == Sort::Process).count(), 7);
    assert_eq!(nodes[2].within.as_ref().map(|used| used.word.as_str()), Some("A"));
    assert_eq!(read.slices[2].nodes[0].word.as_deref(), Some("z"));
    assert_eq!(read.slices[0].node_at(11).map(|node| node.offset), Some(9));
}
