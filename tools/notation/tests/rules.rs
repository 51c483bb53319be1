//! Each rule of the reader that a text can break, on both sides of its border: what is said, and where.

mod support;

use notation::decoding;
use notation::fault::Cause;
use support::told;

const TRUE: &str = "second nil formula true";

/// What is said of a text whose bytes are known; the first of its slices that breaks a rule breaks the same one.
fn broken(text: &str) -> Vec<String> {
    let reading = notation::reading(text);
    let finding = reading.finding.unwrap_or_else(|| panic!("{:?}", told(&reading.faults)));
    let [first, second, formula] = finding.slices;
    let refusals = [decoding::process(&first.bytes).err(), decoding::process(&second.bytes).err()];
    let refused = refusals.into_iter().flatten().chain(decoding::formula(&formula.bytes).err()).next();
    let rules: Vec<Cause> = reading.faults.iter().map(|fault| fault.cause).collect();
    let rule = refused.map(|refusal| Cause::Rule(refusal.rule));
    assert!(rule.map_or(rules.is_empty(), |rule| rules.contains(&rule)), "{text}");
    told(&reading.faults)
}

fn term(nodes: usize) -> String {
    format!("{}1{}", "fst(".repeat(nodes - 1), ")".repeat(nodes - 1))
}

#[test]
fn term_nodes() {
    assert_eq!(broken(&format!("first out(1, {}) {TRUE}", term(8))), Vec::<String>::new());
    let said = "line 1, column 46: nested too deep: 9 term nodes on one path, and 8 are the most (rule 7)";
    assert_eq!(broken(&format!("first out(1, {}) {TRUE}", term(9))), [said]);
    let said = "line 1, column 62: nested too deep: 9 term nodes on one path, and 8 are the most (rule 7)";
    assert_eq!(broken(&format!("first nil second nil formula {} = 1", term(9))), [said]);
}

#[test]
fn process_nodes() {
    assert_eq!(broken(&format!("first {}nil {TRUE}", "repl ".repeat(63))), Vec::<String>::new());
    let said = "line 1, column 327: nested too deep: 65 process nodes on one path, and 64 are the most (rule 7)";
    assert_eq!(broken(&format!("first {}nil {TRUE}", "repl ".repeat(64))), [said]);
}

#[test]
fn variables() {
    let words = |number: usize| (0..number).map(|k| format!("_{k}")).collect::<Vec<_>>().join(", ");
    assert_eq!(broken(&format!("first new {}. nil {TRUE}", words(12))), Vec::<String>::new());
    let said = "nested too deep: a thirteenth variable in scope, and 12 are the most (rule 7)";
    assert_eq!(broken(&format!("first new {}. nil {TRUE}", words(13))), [format!("line 1, column 61: {said}")]);
    assert_eq!(broken(&format!("first new {}.\nin(0, x) {TRUE}", words(12))), [format!("line 2, column 1: {said}")]);
    assert_eq!(
        broken(&format!("first new {}.\nlet x = 1 in nil {TRUE}", words(12))),
        [format!("line 2, column 1: {said}")]
    );
    let par = format!("first new {}. (\nin(0, x) | nil |\n new y. nil) {TRUE}", words(12));
    assert_eq!(broken(&par), [format!("line 2, column 1: {said}"), format!("line 3, column 2: {said}")]);
}

#[test]
fn formula_nodes_and_steps() {
    let formula = |text: String| broken(&format!("first nil second nil formula\n{text}true"));
    assert_eq!(formula("not ".repeat(47)), Vec::<String>::new());
    let said = "line 2, column 193: nested too deep: 49 formula nodes on one path, and 48 are the most (rule 7)";
    assert_eq!(formula("not ".repeat(48)), [said]);
    assert_eq!(formula("<tau> ".repeat(16)), Vec::<String>::new());
    let said = "line 2, column 97: nested too deep: 17 step formulas on one path, and 16 are the most (rule 7)";
    assert_eq!(formula("<tau> ".repeat(17)), [said]);
}

#[test]
fn bytes_of_a_slice() {
    let outputs = |number: usize| format!("first {} {TRUE}", vec!["out(1,\n 1)"; number].join("|"));
    // Each output has 6 bytes, and each `|` one.
    assert_eq!(broken(&outputs(8)), Vec::<String>::new());
    let binary = |depth: usize| {
        let half = (0..depth).fold("out(1, 1)".to_string(), |text, _| format!("({text} | {text})"));
        broken(&format!("first\n{half}\n{TRUE}"))
    };
    assert_eq!(binary(9), Vec::<String>::new());
    let [said] = &binary(10)[..] else { panic!() };
    assert!(said.ends_with("the first model takes 7167 bytes, and 4096 are the most (rule 1)"), "{said}");
    let text = format!("first nil second nil formula\n{}true", "true and\n".repeat(47));
    assert_eq!(broken(&text), Vec::<String>::new());
}

/// The border itself: 4,096 bytes are good, and one more is not.
#[test]
fn one_byte_too_many() {
    let half = (0..11).fold("nil".to_string(), |text, _| format!("({text} | {text})"));
    let model = |prefix: &str| broken(&format!("first {prefix}{half} {TRUE}"));
    assert_eq!(model("repl "), Vec::<String>::new());
    let said = model("repl repl ");
    assert!(said.len() == 1 && said[0].contains("the first model takes 4097 bytes, and 4096 are the most"), "{said:?}");
}

/// The byte that is one too many belongs to the node that is told.
#[test]
fn the_place_of_a_byte_too_many() {
    let half = |depth: usize| (0..depth).fold("nil".to_string(), |text, _| format!("({text} |\n {text})"));
    let text = format!("first\n{}\nsecond nil formula true", half(12));
    let reading = notation::reading(&text);
    let finding = reading.finding.expect("bytes");
    let node = finding.slices[0].nodes.iter().find(|node| node.offset == 4096).expect("a node at byte 4,096");
    assert_eq!(finding.slices[0].bytes.len(), 8191);
    assert_eq!(reading.faults.first().map(|fault| fault.place), Some(node.place));
}

#[test]
fn public_names() {
    for name in [255, 256, 16_383] {
        assert_eq!(
            broken(&format!("names c = {name} first out(c, 1) | out(1, {}) {TRUE}", name - 1)),
            Vec::<String>::new()
        );
    }
    // No two bytes hold a larger one. A word for it is a fault, used or not.
    for (text, said) in [
        ("first out(1, 16384)", "line 1, column 14: a public name is 0 to 16383, found 16384"),
        ("names c = 16384 first nil", "line 1, column 11: a public name is 0 to 16383, found 16384"),
    ] {
        let reading = notation::reading(&format!("{text} {TRUE}"));
        assert!(reading.finding.is_none());
        assert_eq!(told(&reading.faults), [said]);
    }
}

/// Two faults at one place are both told.
#[test]
fn two_faults_at_one_place() {
    let deep = format!("first out(1, {}) {TRUE}", term(9).replace('1', "16384"));
    let said = told(&notation::reading(&deep).faults);
    assert_eq!(said.len(), 2, "{said:?}");
    assert!(said[0].contains("found 16384") && said[1].contains("9 term nodes"), "{said:?}");
}

/// Faults of all sorts in one text, told in the order of their places; what is in an abbreviation is told once.
#[test]
fn many_faults_in_one_text() {
    let text = format!(
        "names c = 0, d = 0\nA = out(c, {})\nfirst A | A | out(c, x)\nsecond new c. out(y, 16384) formula <tau] true",
        term(9)
    );
    let faults = told(&notation::reading(&text).faults);
    assert_eq!(
        faults,
        [
            "line 1, column 14: `d` and `c` are one public name, 0; if so meant: `d = c`",
            "line 2, column 44: nested too deep: 9 term nodes on one path, and 8 are the most (rule 7) \
             (in `A`, used at line 3, column 7)",
            "line 3, column 22: unknown word `x`: it is no public name, and nothing around binds it (rule 6)",
            "line 4, column 12: `c` stands for something here already",
            "line 4, column 19: unknown word `y`: it is no public name, and nothing around binds it (rule 6)",
            "line 4, column 22: a public name is 0 to 16383, found 16384",
            "line 4, column 41: expected `>`, found `]`: the `<` at line 4, column 37 is not closed",
        ]
    );
}
