//! What words stand for.

mod support;

use support::{bytes, fault, finding, formula, process};

fn same(text: &str, other: &str) {
    assert_eq!(bytes(&finding(text)), bytes(&finding(other)), "{text}");
}

#[test]
fn variables_are_numbered_from_the_outside() {
    let words = "new a. in(a, b). let c = pair(a, b) in (out(c, a) | new d. out(d, c))";
    let numbers = "new v0. in(v0, v1). let v2 = pair(v0, v1) in (out(v2, v0) | new v3. out(v3, v2))";
    assert_eq!(process(words), process(numbers));
}

#[test]
fn two_sides_may_bind_one_word() {
    let par = process("new x. (in(x, y). out(y, y) | in(x, y). out(y, y))");
    assert_eq!(par, process("new x. (in(x, y). out(y, y) | in(x, z). out(z, z))"));
    let and = formula("<out 0 x> (<out x y> y = x and <out x y> y = x)");
    assert_eq!(and, formula("<out 0 x> (<out x y> y = x and <out x z> z = x)"));
}

#[test]
fn names_stand_for_numbers() {
    let text = "names c = 3, key = 16383 first out(c, key) second nil formula <out c x> x = key";
    same(text, "first out(3, 16383) second nil formula <out 3 x> x = 16383");
}

#[test]
fn abbreviations_mean_what_they_mean_where_they_stand() {
    let short = "Send = out(c, k) Both = new c. (Send | Send)
                 first new k. Both second new b, k. Both
                 Same = x = y formula <out 0 x> <out 0 y> Same";
    let long = "first new k. new c. (out(c, k) | out(c, k))
                second new b. new k. new c. (out(c, k) | out(c, k))
                formula <out 0 x> <out 0 y> x = y";
    same(short, long);
}

#[test]
fn an_abbreviation_stands_as_if_in_parentheses() {
    let text = "Two = nil | nil first repl Two second Two | nil Or = 1 = 1 or 2 = 2 formula not Or";
    let long = "first repl (nil | nil) second (nil | nil) | nil formula not (1 = 1 or 2 = 2)";
    same(text, long);
}

#[test]
fn words_out_of_scope() {
    for (text, word) in [
        ("first out(0, x) second nil formula true", "x"),
        ("first new x. nil | out(0, x) second nil formula true", "x"),
        ("first in(x, x) second nil formula true", "x"),
        ("first let x = x in nil second nil formula true", "x"),
        ("first new x. nil second out(0, x) formula true", "x"),
        ("first new x. nil second nil formula 0 = x", "x"),
        ("first nil second nil formula <out x x> true", "x"),
        ("first nil second nil formula <out 0 y> true and y = 0", "y"),
        ("Send = out(0, x) first Send second nil formula true", "x"),
    ] {
        let message = fault(text).message;
        assert!(message.starts_with(&format!("unknown word `{word}`")), "{text}\n{message}");
    }
}

#[test]
fn a_word_is_bound_once() {
    for text in [
        "first new x. new x. nil second nil formula true",
        "first new x, x. nil second nil formula true",
        "names x = 1 first in(0, x) second nil formula true",
        "names x = 1, x = 2 first nil second nil formula true",
        "first nil second nil formula <out 0 x> <out 0 x> true",
    ] {
        let message = fault(text).message;
        assert!(message.ends_with("stands for something here already"), "{text}\n{message}");
    }
}

#[test]
fn words_that_bind_nothing() {
    for (text, part) in [
        ("first new in. nil second nil formula true", "reserved"),
        ("first new X. nil second nil formula true", "capital"),
        ("names Card = 1 first nil second nil formula true", "capital"),
    ] {
        let message = fault(text).message;
        assert!(message.contains(part), "{text}\n{message}");
    }
}

#[test]
fn abbreviations_that_cannot_be_used() {
    for (text, part) in [
        ("first Card second nil formula true", "unknown abbreviation `Card`"),
        ("A = B B = nil first A second nil formula true", "unknown abbreviation `B`"),
        ("A = A first A second nil formula true", "unknown abbreviation `A`"),
        ("first A A = nil second nil formula true", "unknown abbreviation `A`"),
        ("A = nil A = nil first A second nil formula true", "`A` is an abbreviation already"),
    ] {
        let message = fault(text).message;
        assert!(message.contains(part), "{text}\n{message}");
    }
}

#[test]
fn the_rest_of_a_finding() {
    let read = finding("# It shows.\nfirst nil second nil formula true answer 13 0 0 4");
    assert_eq!(read.summary, "It shows.");
    assert_eq!(read.answer.map(|(numbers, place)| (numbers, place.line, place.column)), Some(([13, 0, 0, 4], 2, 35)));
    assert_eq!(finding("first nil second nil formula true").answer, None);
}

/// A lone `_` binds what is not used, any number of times; it stands for nothing.
#[test]
fn a_lone_underscore_binds_without_a_word() {
    let text = "first new _, _. in(0, _). in(0, x). out(x, x) second nil formula <out 0 _> <out 0 y> y = 1";
    same(text, "first new a, b. in(0, c). in(0, x). out(x, x) second nil formula <out 0 z> <out 0 y> y = 1");
    let message = fault("first in(0, _). out(0, _) second nil formula true").message;
    assert_eq!(message, "`_` binds what is not used, and stands for nothing");
}

/// Two words are one public name only where the second is said to be the first.
#[test]
fn two_words_for_one_name() {
    same("names c = 7, d = c first out(c, d) second nil formula true", "first out(7, 7) second nil formula true");
    for (text, said) in [
        ("names c = 7, d = 7", "line 1, column 14: `d` and `c` are one public name, 7; if so meant: `d = c`"),
        ("names c = d, d = 7", "line 1, column 11: `d` is no public name before this one; expected that, or a number"),
        ("names c = c", "line 1, column 11: `c` is no public name before this one; expected that, or a number"),
        ("names c = 1, c = 1", "line 1, column 14: `c` stands for something here already"),
    ] {
        assert_eq!(fault(&format!("{text} first nil second nil formula true")).to_string(), said);
    }
}

#[test]
fn what_is_doubtful() {
    let text = "names c = 0, spare = 1, _spare = 2\nUnused = nil\nfirst new k. in(c, _x). in(c, y). out(c, 0)\n\
                second nil\nformula <out c x> true";
    let said: Vec<String> = notation::reading(text).warnings.iter().map(|warning| warning.to_string()).collect();
    assert_eq!(
        said,
        [
            "line 1, column 14: the public name `spare` is not used",
            "line 2, column 1: the abbreviation `Unused` is not used",
            "line 3, column 11: the word `k` is not used",
            "line 3, column 31: the word `y` is not used",
            "line 3, column 42: the public name 0 is `c`; should it be the same here?",
            "line 5, column 16: the word `x` is not used",
        ]
    );
}

/// A word bound in an abbreviation is used if it is in one of the places where that stands.
#[test]
fn what_is_used_in_an_abbreviation() {
    let text = "Take = in(0, x). Rest Rest = nil first Take second nil formula true";
    assert!(fault(text).message.contains("unknown abbreviation `Rest`"));
    let text = "Say = out(0, k) first new k. Say second new k. (Say | Say) formula true";
    assert!(notation::reading(text).warnings.is_empty());
}
