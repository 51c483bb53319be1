//! Explanations: which limit was met, in which words, and that none is given where the second checker disagrees.

mod support;

use judge::report::tell_why;
use judge::why::{explain, explanation, Explanation};
use library::Answer;
use notation::folder::Loaded;
use std::path::Path;
use support::{bytes, judged, nine_nodes, of_slices, written, BUDGET};

/// Messages of 3, 7, 15, 31, 63, 127 and 255 nodes.
const LARGE: &str = "let a = pair(0, 0) in let b = pair(a, a) in let c = pair(b, b) in let d = pair(c, c) in
let e = pair(d, d) in let f = pair(e, e) in let g = pair(f, f) in";

fn told(loaded: &Loaded, answer: Answer) -> Vec<String> {
    match explanation(&loaded.slices, loaded.text.clone(), answer, BUDGET) {
        Explanation::Told(lines) => lines,
        Explanation::Disagrees(message) => panic!("{message}"),
    }
}

/// What is told behind the heading of a finding with this result.
fn why(loaded: &Loaded, result: u32) -> String {
    let answer = judged(loaded, BUDGET);
    assert_eq!(answer.result, result);
    let lines = told(loaded, answer);
    assert!(lines[0].is_empty() && lines[1].contains("which is not proved"), "{lines:?}");
    let labels = lines[2] == "A label in < > or [ ] stands for the formula from there on.";
    lines[if labels { 3 } else { 2 }..].join("\n")
}

#[test]
fn too_many_threads() {
    let outputs = ["out(0, 0)"; 33].join(" | ");
    let said = "\nJudging the formula at the second model meets a limit at the start state:\n  \
                The state has 33 threads, and 32 are the most.";
    assert_eq!(why(&written(&format!("first nil second {outputs} formula true")), 11), said);
}

#[test]
fn too_many_private_names() {
    let text = format!(
        "first repl new a, b, c, d, e, f, g, h, i, j, k, l.\nout(7, 7) second nil formula {}true",
        "<out 7 _> ".repeat(11)
    );
    let mut said = "\nJudging the formula at the first model meets a limit after 11 steps:\n".to_string();
    for step in 1..=11 {
        said += &format!("  {step}. the output at line 2, column 1, in a new copy: it sends 7\n");
    }
    said += "  132 private names are made on the way to the state, and 128 are the most.";
    assert_eq!(why(&written(&text), 11), said);
}

#[test]
fn too_many_nodes() {
    let text = format!("first {LARGE}\n(out(0, g) | in(1, x). out(x, g) | repl out(2, g)) second nil formula true");
    let said = "\nJudging the formula at the first model meets a limit at the start state:\n  \
                The bound messages and aliases of the state have 1503 nodes, and 1024 are the most.";
    assert_eq!(why(&written(&text), 11), said);
}

/// All limits that one state is over are told, and both models.
#[test]
fn several_limits_at_once() {
    let model = format!("new k. {LARGE}\n({})", ["out(0, g)"; 33].join(" | "));
    let of = |model: &str| {
        format!(
            "\nJudging the formula at the {model} model meets a limit at the start state:\n  \
             The state has 33 threads, and 32 are the most.\n  \
             The bound messages and aliases of the state have 16566 nodes, and 1024 are the most."
        )
    };
    let loaded = written(&format!("first {model} second {model} formula true"));
    assert_eq!(why(&loaded, 11), format!("{}\n{}", of("first"), of("second")));
}

#[test]
fn too_large_a_message_after_a_step() {
    let text = format!("first out(7, 1). {LARGE}\nlet h = pair(g, g) in nil second nil formula <out 7 x> x = x");
    let said = "\nJudging the formula at the first model meets a limit after one step:\n  \
                1. the output at line 1, column 7: it sends 1\n  \
                The term at line 3, column 9 gives a message of 511 nodes, and 255 are the most.";
    assert_eq!(why(&written(&text), 11), said);
    let said = said.replace("line 1, column 7", "byte 0").replace("line 3, column 9", "byte 48");
    assert_eq!(why(&bytes(&text), 11), said);
}

#[test]
fn too_large_a_recipe() {
    let text = format!("first {LARGE} out(0, g)\nsecond nil\nformula <out 0 x>\n 1 = enc(x, x)");
    let said = "\nJudging the formula at the first model meets a limit after one step:\n  \
                1. the output at line 2, column 67: it sends ";
    let told = why(&written(&text), 11);
    assert!(told.starts_with(said), "{told}");
    let last = "  The recipe at line 5, column 6 gives a message of 511 nodes, and 255 are the most.";
    assert_eq!(told.lines().last(), Some(last));
    assert!(told.lines().all(|line| line.len() < 250), "{told}");
}

/// Words of the formula, names, private names of two copies, an abbreviation used twice, and all shapes of formulas.
#[test]
fn in_the_words_of_the_finding() {
    let text = "names c = 0, d = 1, e = 2\nSay = out(c, k). in(c, y). if y = k then out(d, y) else nil\n\
                first repl new k. Say\nsecond new k. (Say | Say)\n\
                formula <out c x> <out c y> (x != y and not <tau> true and ([in c x] <out d z> (z = x or z = e) or true))";
    let said = "
The formula is false of the first model.
  <out c x> fails after its only step, the output at line 2, column 7, in a new copy: x is k#1
  <out c y> fails after its only step, the output at line 2, column 7, in a new copy: y is k#2
  side 2 of 3 of `and` fails
  `not` fails, because what it denies holds:
    <tau> holds by step 1 of 2, the output at line 2, column 7 and the input at line 2, column 18: k#3 on c
    true holds

The formula is false of the second model.
  <out c x> fails after each of its 2 steps:
    1. the output at line 2, column 7 (in `Say`, used at line 4, column 16): x is k#1
      <out c y> fails after its only step, the output at line 2, column 7 (in `Say`, used at line 4, column 22): y is k#1
      side 1 of 3 of `and` fails
      x != y fails: both are k#1
    2. the output at line 2, column 7 (in `Say`, used at line 4, column 22): x is k#1
      <out c y> fails after its only step, the output at line 2, column 7 (in `Say`, used at line 4, column 16): y is k#1
      side 1 of 3 of `and` fails
      x != y fails: both are k#1

k#1 is a private name made by `new k`: the first such name told on the way there. In another branch the same mark may \
                be another name.";
    assert_eq!(why(&written(text), 12), said);
}

#[test]
fn boxes_and_alternatives() {
    let text = "names c = 0, d = 1\nfirst out(c, d). out(d, d) | out(c, c) second nil\n\
                formula not [out c x] (x = c or <out d _> x = c or pair(x, d) = x)";
    let said = "
The formula is true of the first model.
  `not` holds, because what it denies fails:
    [out c x] fails after step 1 of 2, the output at line 2, column 7: x is d
    each of the 3 sides of `or` fails:
      - x = c fails: x is d
      - <out d _> fails after its only step, the output at line 2, column 18: it sends d
        x = c fails: x is d
      - pair(x, d) = x fails: pair(x, d) is pair(d, d), x is d

The formula is false of the second model.
  `not` fails, because what it denies holds:
    [out c x] holds: there is no such step";
    assert_eq!(why(&written(text), 0), said);
}

/// Bytes have no words: variables and aliases are numbered, and places are bytes.
#[test]
fn bytes_without_words() {
    let text = "first new k. in(7, _). out(7, enc(k, 8)) second nil formula <in 7 pair(9, 9)> <out 7 x> dec(x, 8) != 3";
    let said = "
The formula is true of the first model.
  <in 7 pair(9, 9)> holds by the input at byte 1: it takes pair(9, 9)
  <out 7 a0> holds by the output at byte 4: a0 is enc(v0#1, 8)
  dec(a0, 8) != 3 holds: dec(a0, 8) is v0#1

The formula is false of the second model.
  <in 7 pair(9, 9)> fails: there is no such step

v0#1 is a private name made by `new v0`: the first such name told on the way there. In another branch the same mark \
                may be another name.";
    assert_eq!(why(&bytes(text), 0), said);
}

/// Whichever of the four numbers differs, nothing is explained.
#[test]
fn no_explanation_without_agreement() {
    let loaded = written("first nil second out(0, 0) formula not <out 0 x> true");
    let Answer { result, slice, place, count } = judged(&loaded, BUDGET);
    for forged in [
        Answer { result: result + 12, slice, place, count },
        Answer { result, slice: slice + 1, place, count },
        Answer { result, slice, place: place + 1, count },
        Answer { result, slice, place, count: count + 1 },
    ] {
        let Explanation::Disagrees(message) = explain(Path::new("f"), &loaded, forged, BUDGET) else { panic!() };
        let both = format!("it answers 0 0 0 5, and the library {forged}.");
        assert!(message.starts_with("THE SECOND CHECKER DISAGREES") && message.contains(&both), "{message}");
        let mut out = Vec::new();
        assert!(!tell_why(Path::new("f"), &Explanation::Disagrees(message), &mut out).expect("nothing is written"));
        assert!(out.is_empty());
    }
}

#[test]
fn the_count_that_is_needed() {
    let loaded = written("first nil second out(0, 0) formula not <out 0 x> true");
    let Explanation::Told(lines) = explain(Path::new("f"), &loaded, judged(&loaded, 4), 4) else { panic!() };
    let said = "By the library's count it takes 5 visits. With --budget 5 the answer is 0 0 0 5, accepted.";
    assert_eq!(lines.last().map(String::as_str), Some(said));
}

/// Where the input is refused, the rule and its place are told.
#[test]
fn what_is_refused() {
    let text = &format!("first nil second\n out(1, {}) formula true", nine_nodes());
    let said = "\nIn the second model rule 7 is broken at line 2, column 41 of finding.txt: \
                it is nested too deep: 9 term nodes on one path, and 8 are the most.";
    assert_eq!(why(&written(text), 7), said);
    assert_eq!(why(&bytes(text), 7), said.replace("line 2, column 41 of finding.txt", "byte 11"));
    assert_eq!(
        why(&of_slices([vec![0], vec![0, 0], vec![]]), 8),
        "\nIn the second model rule 8 is broken at byte 1: bytes are left over."
    );
}

/// Of many steps those are told that go furthest: the first three would not say why the fourth fails.
#[test]
fn the_nearest_miss_is_told() {
    let text =
        "first out(0, 1) | out(0, 2) | out(0, 3) |\nout(0, 4). out(7, 5) second nil formula <out 0 x> <out 7 y> y = 6";
    let said = "
The formula is false of the first model.
  <out 0 x> fails after each of its 4 steps:
    1. the output at line 1, column 7: x is 1
      <out 7 y> fails: there is no such step
    2. the output at line 1, column 19: x is 2
      <out 7 y> fails: there is no such step
    4. the output at line 2, column 1: x is 4
      <out 7 y> fails after its only step, the output at line 2, column 12: y is 5
      y = 6 fails: y is 5
    it also fails after 1 more, not told

The formula is false of the second model.
  <out 0 x> fails: there is no such step";
    assert_eq!(why(&written(text), 12), said);
}

/// However many steps there are, what is told ends with an equation, or with a step that there is not.
#[test]
fn what_is_told_comes_to_an_end() {
    let outputs: Vec<String> = (1..=20).map(|name| format!("out(0, {name})")).collect();
    let text = format!("first {} second nil formula <out 0 x> <out 0 y> <out 0 z> x = y", outputs.join(" | "));
    let told = why(&written(&text), 12);
    let ends = told.lines().filter(|line| line.contains("x = y fails: x is ")).count();
    assert_eq!((ends, told.lines().count()), (3, 19), "{told}");
    let below = "<out 0 y> fails after each of its 19 steps; told is step 1, the output at line 1, column 7: y is 1";
    assert!(told.contains(below), "{told}");
}

/// A formula of many parts is cut too.
#[test]
fn so_many_lines_are_told() {
    let part = format!("{}true", "<tau> ".repeat(8));
    let text = format!("first repl out(0, 0) | repl in(0, _) second nil formula {}", [part.as_str(); 40].join(" and "));
    let told = why(&written(&text), 0);
    let first = told.split("\n\n").next().expect("the first model");
    assert_eq!(first.lines().count(), 153, "{first}");
    assert!(first.ends_with("\n  211 lines more are not told."), "{first}");
}

/// Of abbreviations in abbreviations as many uses are told as are needed to tell one place from the others.
#[test]
fn uses_of_abbreviations() {
    let text = "A = out(0, 1)\nB = A\nfirst B | B second A formula <out 0 x> x = 2";
    let told = why(&written(text), 12);
    for part in [
        "1. the output at line 1, column 5 (in `A`, used at line 2, column 5, in `B`, used at line 3, column 7): x is 1",
        "2. the output at line 1, column 5 (in `A`, used at line 2, column 5, in `B`, used at line 3, column 11): x is 1",
        "fails after its only step, the output at line 1, column 5: x is 1",
    ] {
        assert!(told.contains(part), "{told}");
    }
}

#[test]
fn not_true_is_told_so() {
    let said = "
The formula is false of the first model.
  `not` fails, because what it denies holds:
    true holds

The formula is false of the second model.
  `not` fails, because what it denies holds:
    true holds";
    assert_eq!(why(&written("first nil second nil formula not true"), 12), said);
}
