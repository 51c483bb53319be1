//! Texts that are no findings: what is said, and about which place. None of them panics.

mod support;

use notation::fault::Place;
use support::{fault, Random};

#[test]
fn what_is_said_and_where() {
    for (text, said) in [
        (
            "",
            "line 1, column 1: expected `first`, found the end of the text: \
             there is nothing in it but blanks and comments",
        ),
        ("first", "line 1, column 6: expected a process, found the end of the text"),
        ("first\n  out(0 1)", "line 2, column 9: expected `,`, found `1`"),
        ("first\n  out(0, 16384)", "line 2, column 10: a public name is 0 to 16383, found 16384"),
        ("first in(0, 1)", "line 1, column 13: expected a word to bind, found `1`"),
        ("first new x nil", "line 1, column 13: expected `,` or `.`, found `nil`"),
        ("first if 0 = 0 then nil second", "line 1, column 25: expected `else`, found `second`: an `if` has both branches, the second may be `else nil`"),
        ("first out(0, nil)", "line 1, column 14: expected a term, found `nil`"),
        ("first 0", "line 1, column 7: the process `0` is written `nil`"),
        ("first 1", "line 1, column 7: expected a process, found `1`"),
        ("first then", "line 1, column 7: expected a process, found `then`"),
        ("first nil nil", "line 1, column 11: expected `second`, found `nil`"),
        ("first (nil second", "line 1, column 12: expected `)`, found `second`: the `(` at line 1, column 7 is not closed"),
        (
            "first nil second nil formula <0> true",
            "line 1, column 31: expected `out`, `in` or `tau`, found `0`: \
             a step formula is `<out c x> F`, `<in c M> F` or `<tau> F`",
        ),
        ("first nil second nil formula <tau] true", "line 1, column 34: expected `>`, found `]`: the `<` at line 1, column 30 is not closed"),
        ("first nil second nil formula and", "line 1, column 30: expected a formula, found `and`"),
        ("first nil second nil formula 0 < 1", "line 1, column 32: expected `=` or `!=`, found `<`"),
        ("first nil second nil formula true 0", "line 1, column 35: expected the end of the text, found `0`"),
        (
            "first nil second nil formula true answer 0 0",
            "line 1, column 45: expected a number, found the end of the text",
        ),
        ("names c = .", "line 1, column 11: expected a number, found `.`"),
        ("names 1 = c", "line 1, column 7: expected a word for a public name, found `1`"),
        (
            "first\n\tout(0, 6A80)",
            "line 2, column 9: expected a term, found `6A80`: a word starts with a letter",
        ),
        ("first out(0, 99999999999)", "line 1, column 14: expected a term, found `99999999999`: this number is too large"),
        ("# é\nfirst é", "line 2, column 7: expected a process, found `é` (U+00E9): this is no part of the notation"),
        ("first ; nil", "line 1, column 7: expected a process, found `;`: \
             leave it off, or write `.` between an action and what follows"),
    ] {
        assert_eq!(fault(text).to_string(), said, "{text}");
    }
}

#[test]
fn faults_in_abbreviations_name_both_places() {
    for (text, said) in [
        (
            "Card = out(c, x)\nfirst new c.\n  Card second nil formula true",
            "line 1, column 15: unknown word `x`: it is no public name, and nothing around binds it (rule 6) \
             (in `Card`, used at line 3, column 3)",
        ),
        (
            "A = nil nil\nfirst A second nil formula true",
            "line 1, column 9: expected the end of the abbreviation, found `nil` (in `A`, used at line 2, column 7)",
        ),
        (
            "A =\nfirst A second nil formula true",
            "line 2, column 1: expected a process, found `first` (in `A`, used at line 2, column 7)",
        ),
    ] {
        assert_eq!(fault(text).to_string(), said, "{text}");
    }
}

#[test]
fn deep_and_large_texts_are_refused() {
    for unit in ["(", "repl ", "new x, ", "out(0, 0). ", "nil | ", "if 0 = 0 then ", "out(0, fst("] {
        fault(&format!("first {}", unit.repeat(20_000)));
    }
    for unit in ["(", "not ", "<tau> ", "[tau] ", "true and ", "true or ", "fst("] {
        fault(&format!("first nil second nil formula {}", unit.repeat(20_000)));
    }
    let doubling: String = (1..60).map(|i| format!("A{i} = A{} | A{}\n", i - 1, i - 1)).collect();
    let said = fault(&format!("A0 = nil\n{doubling}first A59 second nil formula true")).message;
    assert!(said.contains("nodes"), "{said}");
    let faults =
        notation::read(&format!("A0 = nil nil\n{doubling}first A59 second A59 formula true")).expect_err("faults");
    assert!(faults.iter().any(|fault| fault.message.contains("the end of the abbreviation")), "{faults:?}");
    let unused: String = (0..3000).map(|i| format!("B{i} = A14\n")).collect();
    let doubling: String = (1..15).map(|i| format!("A{i} = A{} | A{}\n", i - 1, i - 1)).collect();
    support::finding(&format!("A0 = nil\n{doubling}{unused}first nil second nil formula true"));
}

#[test]
fn no_text_panics() {
    let pieces = [
        "first", "second", "formula", "answer", "names", "nil", "new", "out", "in", "if", "then", "else", "let",
        "repl", "(", ")", ",", ".", "=", "!=", "<", ">", "[", "]", "|", "x", "A", "0", "7", "pair", "not", "and",
        "tau", "#", "\n", "!", ";", ":", "(*", "*)", "/*", "//", "&&", "||", "<>", "==", "false", "_", "é", "6A",
    ];
    let mut random = Random(3);
    for _ in 0..20_000 {
        let length = random.below(30);
        let words: Vec<&str> = (0..length).map(|_| pieces[random.below(pieces.len())]).collect();
        let _ = notation::read(&words.join(" "));
        let _ = notation::read(&format!("first {}", words.join(" ")));
    }
}

/// After a fault that stops a section, the other sections are read.
#[test]
fn sections_are_read_each_by_itself() {
    let text = "names c\nfirst out(c c)\nsecond (nil | ) formula <out 1 x> x\nanswer 1 2 3";
    let said: Vec<String> = notation::reading(text).faults.iter().map(|fault| fault.to_string()).collect();
    assert_eq!(
        said,
        [
            "line 2, column 1: expected `=`, found `first`",
            "line 2, column 11: unknown word `c`: it is no public name, and nothing around binds it (rule 6)",
            "line 2, column 13: expected `,`, found `c`",
            "line 3, column 15: expected a process, found `)`",
            "line 4, column 1: expected `=` or `!=`, found `answer`",
            "line 4, column 13: expected a number, found the end of the text",
        ]
    );
    let text = "second nil first nil formula true";
    let said: Vec<String> = notation::reading(text).faults.iter().map(|fault| fault.to_string()).collect();
    let expected = ["expected `first`, found `second`", "expected `formula`, found `first`"];
    assert!(said.len() == 2 && said.iter().zip(expected).all(|(said, part)| said.ends_with(part)), "{said:?}");
}

/// A byte order mark is passed over; what is no text is told with its place.
#[test]
fn bytes_that_are_no_text() {
    assert_eq!(notation::text::text(b"\xef\xbb\xbffirst"), Ok("first"));
    for (bytes, said) in [
        (&b"\xff\xfef\0"[..], "this is text in UTF-16; save it as UTF-8"),
        (b"\xfe\xff\0f", "this is text in UTF-16; save it as UTF-8"),
        (
            "first\n  é\u{20ac}".as_bytes().strip_suffix(b"\xac").expect("its last byte"),
            "line 2, column 4: the byte e2 is no text in UTF-8; is this a file of bytes, or saved otherwise?",
        ),
        (b"\x80", "line 1, column 1: the byte 80 is no text in UTF-8; is this a file of bytes, or saved otherwise?"),
    ] {
        assert_eq!(notation::text::text(bytes), Err(said.to_string()));
    }
}

/// A comment ends with its line, by whichever character that ends.
#[test]
fn ends_of_lines() {
    for end in ["\n", "\r\n", "\r", "\u{85}", "\u{2028}", "\u{2029}"] {
        let text = ["first nil # a", "| out(0, 1)", "second nil # b", "formula true"].join(end);
        let read = support::finding(&text);
        assert_eq!(read.slices[0].bytes, [6, 0, 2, 0, 0, 0, 1, 0], "{end:?}");
        assert_eq!(fault(&text.replace("true", "x = 1")).place, Place { line: 4, column: 9 }, "{end:?}");
    }
}

/// What cannot be seen, or may be taken for something else, is told by its number; what is long is cut.
#[test]
fn characters_that_mislead() {
    for (text, found) in [
        ("first \u{441}", "`\u{441}` (U+0441)"),
        ("first \u{200b}nil", "the character U+200B"),
        ("first \u{1b}[31m", "the character U+001B"),
        ("first \0", "the character U+0000"),
        ("first n\u{456}l", "`n\u{456}l`, in which `\u{456}` is U+0456"),
    ] {
        assert!(fault(text).message.starts_with(&format!("expected a process, found {found}: ")), "{}", fault(text));
    }
    for long in ["x".repeat(100_000), "9".repeat(100_000), format!("out(0, {})", "x".repeat(256))] {
        assert!(fault(&format!("first {long}")).message.len() < 200);
    }
    support::finding(&format!("names {0} = 1 first out({0}, 2) second nil formula true", "x".repeat(255)));
}

/// What is in an abbreviation that is not used is read all the same, as a process or a formula.
#[test]
fn abbreviations_that_are_not_used() {
    let rest = "first nil second nil formula true";
    for good in ["A = out(c, x)", "A = x = y and <out c z> z = z", "A = new x. B", "A = 1 = 1"] {
        assert_eq!(notation::reading(&format!("{good} {rest}")).faults, [], "{good}");
    }
    for (bad, said) in [
        ("A = )", "line 1, column 5: expected a process, found `)`"),
        ("A = nil nil", "line 1, column 9: expected the end of the abbreviation, found `nil`"),
        ("A = <tau> nil", "line 1, column 11: expected a formula, found `nil`"),
        ("A =", "line 1, column 5: expected a process, found `first`"),
        ("A = !nil", "line 1, column 5: `!P` is written `repl P`"),
    ] {
        assert_eq!(fault(&format!("{bad} {rest}")).to_string(), said, "{bad}");
    }
}
