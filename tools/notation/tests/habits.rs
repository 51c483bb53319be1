//! What users of ProVerif and of the applied pi-calculus write: what is said, and how reading goes on.

mod support;

use support::{bytes, fault, finding, told};

fn all(text: &str) -> Vec<String> {
    told(&notation::reading(text).faults)
}

/// Everything that can be meant in one way alone is told in one run.
#[test]
fn a_model_of_proverif() {
    let text = "first\n  !(new k: bitstring; out(1, k); 0) || in(1, x: bitstring); if x == 2 then 0\n\
                second 0\nformula <out(1, x)> false && !(x <> 2)";
    assert_eq!(
        all(text),
        [
            "line 2, column 3: `!P` is written `repl P`",
            "line 2, column 10: words have no types: leave off `: bitstring`",
            "line 2, column 21: `;` is written `.`",
            "line 2, column 32: `;` is written `.`",
            "line 2, column 34: the process `0` is written `nil`",
            "line 2, column 37: `P || Q` is written `P | Q`",
            "line 2, column 47: words have no types: leave off `: bitstring`",
            "line 2, column 59: `;` is written `.`",
            "line 2, column 66: `==` is written `=`",
            "line 2, column 76: the process `0` is written `nil`",
            "line 3, column 1: expected `else`, found `second`: an `if` has both branches, the second may be `else nil`",
            "line 3, column 8: the process `0` is written `nil`",
            "line 4, column 13: a label is written without parentheses: `<out c x>`",
            "line 4, column 21: `false` is written `not true`",
            "line 4, column 27: `&&` is written `and`",
            "line 4, column 30: `!F` is written `not F`",
            "line 4, column 32: unknown word `x`: it is no public name, and nothing around binds it (rule 6)",
            "line 4, column 34: `<>` is written `!=`",
        ]
    );
}

/// What is written instead has none of these faults, and means that.
#[test]
fn what_to_write_instead() {
    let text = "first repl (new k. out(1, k). nil) | in(1, x). if x = 2 then nil else nil second nil \
                formula <out 1 x> (not true and not x != 2)";
    finding(text);
}

#[test]
fn what_is_said() {
    for (text, said) in [
        (
            "first c<m>",
            "expected a process, found `c`: an output is written `out(c, m). P`, and an input `in(c, x). P`",
        ),
        (
            "first c(x).nil",
            "expected a process, found `c`: an output is written `out(c, m). P`, and an input `in(c, x). P`",
        ),
        ("first nu k. nil", "expected a process, found `nu`: a private name is written `new k. P`"),
        ("first νk. nil", "expected a process, found `ν` (U+03BD): a private name is written `new k. P`"),
        ("first out(1, (2, 3))", "expected a term, found `(`: terms have no parentheses around them; a pair is written `pair(M, N)`"),
        ("first out(1, senc(2, 3))", "`senc` is no function: enc(M, K) encrypts M under K"),
        ("first out(1, f(2, g(3)))", "`f` is no function: the functions are pair, fst, snd, enc, dec and mac"),
        ("first if 1 <> 2 then nil else nil", "expected `=`, found `<>`: write `if M = N then Q else P`"),
        (
            "first if 1 = 2 and 2 = 3 then nil else nil",
            "expected `then`, found `and`: an `if` has one equation; write one `if` in another",
        ),
        (
            "free c: channel. first nil",
            "expected `first`, found `free`: public names are declared at the top, as in `names c = 0, d = 1`",
        ),
        ("process nil", "expected `first`, found `process`: the models are written behind `first` and `second`"),
        ("first out(1, 2). second nil formula true", "leave off the `.` where nothing follows"),
        ("first repl", "expected a process, found the end of the text"),
        ("first nil)", "expected `second`, found `)`: there is nothing open that `)` closes"),
        ("(* A comment. *) first nil second nil formula true", "a comment starts with `#`, and ends with its line"),
        ("first nil // A comment.\nsecond nil formula true", "a comment starts with `#`, and ends with its line"),
        (
            "first nil second nil formula <out 1> true",
            "expected a word to bind, found `>`: an output step gives what is sent a word, as in `<out c x>`",
        ),
        ("first nil second nil formula <> true", "expected a formula, found `<>`: a silent step is written `<tau> F`"),
        (
            "first nil second nil formula <1> true",
            "expected `out`, `in` or `tau`, found `1`: a step formula is `<out c x> F`, `<in c M> F` or `<tau> F`",
        ),
        (
            "first nil second nil formula true => true",
            "expected the end of the text, found `=>`: `F implies G` is written `not F or G`",
        ),
        ("first nil second nil formula ¬ true", "expected a formula, found `¬` (U+00AC): it is written `not`"),
        ("first out(1, pair(1, 2, 3))", "expected `)`, found `,`: `pair` takes two terms"),
        ("first out(1, enc(2))", "expected `,`, found `)`: `enc` takes two terms"),
        ("first in(1, (x, y))", "expected a word to bind, found `(`: `in` binds one word, as p; its parts are fst(p) and snd(p)"),
        ("first in(1, =2)", "expected a word to bind, found `=`: `in` binds a word, as x; write `if x = M then P else nil` after it"),
        ("first let (x, y) = 1 in nil", "expected a word to bind, found `(`: `let` binds one word, as p; its parts are fst(p) and snd(p)"),
        ("first let x = 1 in nil else nil", "expected `second`, found `else`: only an `if` has an `else`; nothing in a `let` can fail"),
        ("names c = 0, first nil second nil formula true", "leave this off: no public name follows"),
        ("names c = 0; d = 1 first out(c, d) second nil formula true", "`;` is written `,` between public names"),
        ("names c = 0 d = 1 first out(c, d) second nil formula true", "a `,` is missing between two public names"),
        ("names c = 0. first out(c, c) second nil formula true", "leave off this `.`"),
        ("names _ = 0 first nil second nil formula true", "`_` binds what is not used, and is no public name"),
        ("first out(0, 1); second nil formula true", "leave off the `;` where nothing follows"),
        ("first (out(0, 1). | nil) second nil formula true", "leave off the `.` where nothing follows"),
        ("first nil. second nil formula true", "leave off this `.`"),
        ("first nil second nil formula true answer 1 2 3 4;", "leave off this `;`"),
        ("first out(0, 1, 2)", "expected `)`, found `,`: an output sends one message; pair(M, N) is two in one"),
        ("first new (k, l). nil", "expected a word to bind, found `(`: several private names are written `new k, l. P`"),
        ("names c = 0; first nil second nil formula true", "leave off this `;`"),
        ("first nil second nil formula true;", "leave off this `;`"),
        ("first: nil second nil formula true", "leave off this `:`"),
        ("P(x) = nil first P", "expected `first`, found `P`: an abbreviation is written `P = ..`, and its words mean what they mean where it is used"),
        ("p = nil first nil second nil formula true", "expected `first`, found `p`: an abbreviation starts with a capital letter"),
        ("A = nil first out(0, A) | A second nil formula true", "`A` is no term: abbreviations are processes or formulas"),
        ("first nil second nil formula <in 0 x> x = 1", "unknown word `x`: the label `in` has a recipe and binds nothing (rule 6)"),
        ("first nil second nil formula tt", "`tt` is written `true`"),
        ("first nil second nil formula ff", "`ff` is written `not true`"),
    ] {
        assert_eq!(fault(text).message, said, "{text}");
    }
}

/// A comment of another notation is passed over, and hides no fault behind it.
#[test]
fn behind_comments() {
    let text = "(* One\n two *) first /* three * 3 */ nil\nsecond nil formula x = 1";
    let said = all(text);
    assert_eq!(said.len(), 3, "{said:?}");
    assert!(said[2].starts_with("line 3, column 20: unknown word `x`"), "{said:?}");
    assert_eq!(all("first nil second nil formula true (* open").len(), 1);
}

/// What is told with what to write causes no further fault.
#[test]
fn one_fault_for_one_slip() {
    for text in [
        "names c = 0; d = 1 first out(c, d) second nil formula true",
        "names c = 0 d = 1 first out(c, d) second nil formula true",
        "free c: channel. names c = 0 first out(c, c) second nil formula true",
        "first nil second nil formula <in 0 x> x = 1",
        "first out(0, 1); second nil formula true",
    ] {
        assert_eq!(all(text).len(), 1, "{:?}", all(text));
    }
}

/// `false` may be a word like any other.
#[test]
fn words_that_are_meant() {
    let text = "names false = 1, process = 2 first out(false, process) second nil formula <out false x> x = process";
    let other = "first out(1, 2) second nil formula <out 1 x> x = 2";
    assert_eq!(bytes(&finding(text)), bytes(&finding(other)));
    assert!(fault("first nil second nil formula false = 1").message.starts_with("unknown word `false`"));
}

#[test]
fn what_is_not_closed() {
    for (text, said) in [
        (
            "first\n (nil | (nil)\nsecond nil",
            "line 3, column 1: expected `)`, found `second`: the `(` at line 2, column 2 is not closed",
        ),
        (
            "first out(1, 2. nil",
            "line 1, column 15: expected `)`, found `.`: the `(` at line 1, column 10 is not closed",
        ),
        (
            "first in(1, x second",
            "line 1, column 15: expected `)`, found `second`: the `(` at line 1, column 9 is not closed",
        ),
        (
            "first out(1, pair(2, 3)",
            "line 1, column 24: expected `)`, found the end of the text: the `(` at line 1, column 10 is not closed",
        ),
        ("first out(1, fst(2, 3))", "line 1, column 19: expected `)`, found `,`: `fst` takes one term"),
        (
            "first nil second nil formula (true",
            "line 1, column 35: expected `)`, found the end of the text: the `(` at line 1, column 30 is not closed",
        ),
        (
            "first nil second nil formula [tau true",
            "line 1, column 35: expected `]`, found `true`: the `[` at line 1, column 30 is not closed",
        ),
    ] {
        assert_eq!(fault(text).to_string(), said, "{text}");
    }
}
