//! The sentences and the words for every result.

mod support;

use judge::meaning::{sentence, words, RESULTS};
use library::Answer;
use notation::folder::Loaded;
use std::collections::BTreeSet;
use support::{bytes, judged, nine_nodes, of_slices, written, BUDGET};

fn nothing() -> Loaded {
    of_slices([vec![], vec![], vec![]])
}

fn answer(result: u32, slice: u32, place: u32, count: u32) -> Answer {
    Answer { result, slice, place, count }
}

#[test]
fn each_result_has_a_sentence_and_words_of_its_own() {
    let all: Vec<Answer> = RESULTS.map(|result| answer(result, 1, 2, 3)).collect();
    let sentences: BTreeSet<String> = all.iter().map(|answer| sentence(*answer, &nothing(), true)).collect();
    let short: BTreeSet<String> = all.iter().map(|answer| words(*answer)).collect();
    assert_eq!((sentences.len(), short.len()), (14, 14));
    assert!(sentences.iter().all(|sentence| sentence.ends_with('.') && !sentence.contains("  ")));
}

#[test]
fn a_refusal_has_its_place() {
    for (slice, name) in [(1, "the first model"), (2, "the second model"), (3, "the formula")] {
        let refused = answer(7, slice, 64, 0);
        assert_eq!(
            sentence(refused, &nothing(), true),
            format!("Refused by rule 7, at byte 64 of {name}: it is nested too deep.")
        );
        assert_eq!(words(refused), format!("refused by rule 7, at byte 64 of {name}"));
    }
}

#[test]
fn hints() {
    let over = sentence(answer(10, 0, 0, 4), &nothing(), true);
    assert!(
        over.contains("--budget N with N up to 4294967295") && over.contains("judge --why FOLDER looks for the count")
    );
    assert!(sentence(answer(10, 0, 0, u32::MAX), &nothing(), true).ends_with("There is no larger budget."));
    for result in 11..=13 {
        assert!(sentence(answer(result, 0, 0, 4), &nothing(), true).ends_with(" judge --why FOLDER says why."));
    }
    for result in RESULTS {
        assert!(!sentence(answer(result, 0, 0, 4), &nothing(), false).contains("--"));
    }
}

/// The sentence on a finding that breaks a rule names the limit, and the place in the text where there is one.
#[test]
fn what_is_refused_is_told_in_the_text() {
    let deep = format!("first nil\nsecond {}nil formula true", "repl ".repeat(64));
    let steps = format!("A = {}true\nfirst nil second nil formula A", "<tau> ".repeat(17));
    let long = (0..11).fold("nil".to_string(), |text, _| format!("({text} |\n {text})"));
    for (text, said) in [
        (
            format!("first out(1,\n {}) second nil formula true", nine_nodes()),
            "Refused by rule 7, at byte 11 of the first model: it is nested too deep: 9 term nodes on one path, \
             and 8 are the most; in finding.txt that is at line 2, column 34.",
        ),
        (
            deep,
            "Refused by rule 7, at byte 64 of the second model: it is nested too deep: 65 process nodes on one path, \
             and 64 are the most; in finding.txt that is at line 2, column 328.",
        ),
        (
            steps,
            "Refused by rule 7, at byte 16 of the formula: it is nested too deep: 17 step formulas on one path, \
             and 16 are the most; in finding.txt that is at line 1, column 101 (in `A`, used at line 2, column 30).",
        ),
        (
            format!("first\n{long} | nil second nil formula true"),
            "Refused by rule 1, at byte 4096 of the first model: it has more than 4,096 bytes; \
             in finding.txt that is at line 2049, column 19.",
        ),
    ] {
        let loaded = written(&text);
        assert_eq!(sentence(judged(&loaded, BUDGET), &loaded, true), said);
        let loaded = bytes(&text);
        let without = said.split("; in finding.txt").next().expect("a part").to_string() + ".";
        assert_eq!(sentence(judged(&loaded, BUDGET), &loaded, true), without);
    }
}
