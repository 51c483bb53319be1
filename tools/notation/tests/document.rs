//! The examples in `docs/NOTATION.md`, which are the fenced blocks and one table.

mod support;

use notation::syntax::LARGEST_NAME;
use notation::{folder, print, rules};
use std::fs;
use std::process::Command;
use support::{blocks, blocks_of, bytes, document, examples, fault, finding, formula, hexadecimal, process, trees};

/// The lines of a block in two parts, without the blanks between.
fn pairs(mark: &str, between: &str) -> Vec<(String, String)> {
    let parts = |line: &str| line.split_once(between).map(|(left, right)| (left.trim().into(), right.trim().into()));
    let lines: Vec<String> = blocks_of(mark).iter().flat_map(|block| block.lines().map(String::from)).collect();
    lines.iter().map(|line| parts(line).unwrap_or_else(|| panic!("{mark}: {line}"))).collect()
}

fn numbers(finding: &notation::Finding) -> Option<[u32; 4]> {
    finding.answer.map(|(numbers, _)| numbers)
}

#[test]
fn no_block_is_left_unchecked() {
    let checked = ["finding", "bytes", "ebnf", "processes", "formulas", "faults", "warnings", "usage", "printed"];
    for (mark, text) in blocks() {
        assert!(checked.contains(&mark.as_str()), "{mark}: {text}");
    }
}

#[test]
fn findings_can_be_encoded() {
    for text in blocks_of("finding") {
        assert!(finding(&text).answer.is_some(), "{text}");
    }
}

#[test]
fn the_first_finding_has_the_bytes_and_is_printed_so() {
    let read = finding(&blocks_of("finding")[0]);
    let slices = folder::FILES.iter().zip(bytes(&read));
    let lines: Vec<_> = slices.map(|(file, bytes)| (file.to_string(), hexadecimal(&bytes))).collect();
    assert_eq!(pairs("bytes", " "), lines);
    let (first, second, formula) = trees(&read);
    assert_eq!(blocks_of("printed"), [print::finding(&first, &second, &formula)]);
}

/// Its answer is that of the example, which is judged.
#[test]
fn the_first_finding_is_an_example_with_an_abbreviation() {
    let (read, example) = (finding(&blocks_of("finding")[0]), folder::finding(&examples().join("replayed_nonce")));
    let (example, _) = example.unwrap_or_else(|lines| panic!("{lines:?}"));
    assert_eq!((bytes(&read), numbers(&read)), (bytes(&example), numbers(&example)));
}

#[test]
fn the_second_finding_is_an_example() {
    let example = fs::read_to_string(examples().join("telling_error/finding.txt")).expect("the example");
    assert_eq!(blocks_of("finding")[1], example);
}

#[test]
fn precedence() {
    for (short, long) in pairs("processes", "#") {
        assert_eq!(process(&short), process(&long), "{short}");
    }
    for (short, long) in pairs("formulas", "#") {
        assert_eq!(formula(&short), formula(&long), "{short}");
    }
}

/// The cells of the table under a header, without quotation marks.
fn table(header: &str) -> Vec<Vec<String>> {
    let document = document();
    let rows = document.lines().skip_while(|line| !line.starts_with(header)).skip(2);
    let rows: Vec<&str> = rows.take_while(|line| line.starts_with('|')).collect();
    assert!(rows.len() > 3, "{header}: {rows:?}");
    let cells = |row: &str| row.replace("\\|", "\0").trim_matches('|').split('|').map(cell).collect();
    rows.into_iter().map(cells).collect()
}

fn cell(text: &str) -> String {
    text.trim().trim_matches('`').replace('\0', "|")
}

#[test]
fn what_is_spelled_out() {
    for row in table("| written | stands for |") {
        let [written, stands_for, bytes] = &row[..] else { panic!("{row:?}") };
        assert_eq!(formula(written), formula(stands_for), "{row:?}");
        let read = finding(&format!("first nil second nil formula {written}"));
        assert_eq!(hexadecimal(&read.slices[2].bytes), *bytes, "{row:?}");
    }
}

/// What the tables of meanings say is written here is written so, with words for the letters.
#[test]
fn what_is_written_here() {
    let words = "names c = 0, m = 1, n = 2, k0 = 3 P = nil Q = nil";
    for row in table("| here | what it does |") {
        let written = row[0].trim_start_matches("names c = 0");
        let process = if written.is_empty() { "nil" } else { written };
        finding(&format!("{words} first {process} second nil formula true"));
    }
    for row in table("| here | what it is |") {
        finding(&format!("{words} first new k. out(c, {}) second nil formula true", row[0]));
    }
    for row in table("| here | true where |") {
        finding(&format!("{words} F = true G = true first nil second nil formula {}", row[0]));
    }
}

/// Each limit is the one that is held to.
#[test]
fn limits() {
    let numbers =
        table("| what | most | rule |").into_iter().map(|row| row[1].replace(',', "").parse().expect("a number"));
    let limits = [
        rules::LONGEST,
        usize::from(LARGEST_NAME),
        rules::TERM_NODES,
        rules::PROCESS_NODES,
        rules::VARIABLES,
        rules::FORMULA_NODES,
        rules::STEP_FORMULAS,
    ];
    assert_eq!(numbers.collect::<Vec<usize>>(), limits);
}

/// What is written otherwise elsewhere: the column of ProVerif is told to be a fault here, or is the same.
#[test]
fn what_is_written_otherwise() {
    for (written, hint) in [
        ("new k: bitstring; P", "words have no types"),
        ("out(c, m); P", "`;` is written `.`"),
        ("in(c, x: bitstring); P", "words have no types"),
        ("!P", "`!P` is written `repl P`"),
        ("0", "the process `0` is written `nil`"),
    ] {
        let rows = table("| here | what it does |");
        assert!(rows.iter().any(|row| row[3] == written), "{written}");
        let message = fault(&format!("names c = 0, m = 1 P = nil first {written} second nil formula true")).message;
        assert!(message.starts_with(hint), "{written}: {message}");
    }
}

#[test]
fn warnings() {
    for (text, said) in pairs("warnings", "  ") {
        let warnings = notation::reading(&format!("{text} second nil formula true")).warnings;
        assert_eq!(warnings.first().map(|warning| warning.to_string()), Some(said), "{text}");
    }
}

#[test]
fn faults() {
    for (text, said) in pairs("faults", "  ") {
        assert_eq!(fault(&text).to_string(), said, "{text}");
    }
}

#[test]
fn usage() {
    let output = Command::new(env!("CARGO_BIN_EXE_encode")).arg("--help").output().expect("encode runs");
    let said = String::from_utf8_lossy(&output.stdout).into_owned();
    let usages = said.lines().filter(|line| line.starts_with("encode "));
    let lines: String = usages.map(|line| format!("examples/{line}\n")).collect();
    assert_eq!(blocks_of("usage"), [lines]);
}
