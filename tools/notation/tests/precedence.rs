//! How the notation groups, and what the short spellings stand for.

mod support;

use notation::syntax::{Formula, Process, Term};
use support::{formula, process};

#[test]
fn processes_that_are_the_same() {
    let same = [
        ("nil | nil | out(0, 0)", "nil | (nil | out(0, 0))"),
        ("new x. nil | nil", "(new x. nil) | nil"),
        ("new x, y. out(x, y)", "new x. new y. out(x, y)"),
        ("repl nil | nil", "(repl nil) | nil"),
        ("repl new x. repl nil", "repl (new x. (repl nil))"),
        ("let x = 1 in out(x, x) | nil", "(let x = 1 in out(x, x)) | nil"),
        ("if 0 = 1 then nil else nil | nil", "(if 0 = 1 then nil else nil) | nil"),
        (
            "if 0 = 1 then if 2 = 3 then nil else out(0, 0) else out(1, 1)",
            "if 0 = 1 then (if 2 = 3 then nil else out(0, 0)) else out(1, 1)",
        ),
        ("out(0, 1)", "out(0, 1). nil"),
        ("in(0, x)", "in(0, x). nil"),
        ("in(0, x). out(1, x) | nil", "(in(0, x). (out(1, x). nil)) | nil"),
    ];
    for (short, long) in same {
        assert_eq!(process(short), process(long), "{short}");
    }
}

#[test]
fn formulas_that_are_the_same() {
    let same = [
        ("true", "0 = 0"),
        ("1 != 2", "not 1 = 2"),
        ("1 = 2 or 3 = 4", "not (not 1 = 2 and not 3 = 4)"),
        ("[tau] 1 = 2", "not <tau> not 1 = 2"),
        ("[in 1 2] 1 = 2", "not <in 1 2> not 1 = 2"),
        ("[out 1 x] x = 2", "not <out 1 x> not x = 2"),
        ("1 = 1 and 2 = 2 and 3 = 3", "1 = 1 and (2 = 2 and 3 = 3)"),
        ("1 = 1 or 2 = 2 or 3 = 3", "1 = 1 or (2 = 2 or 3 = 3)"),
        ("1 = 1 and 2 = 2 or 3 = 3", "(1 = 1 and 2 = 2) or 3 = 3"),
        ("1 = 1 or 2 = 2 and 3 = 3", "1 = 1 or (2 = 2 and 3 = 3)"),
        ("not 1 = 1 and 2 = 2", "(not 1 = 1) and 2 = 2"),
        ("<tau> 1 = 1 and 2 = 2", "(<tau> 1 = 1) and 2 = 2"),
        ("[tau] not <tau> 1 = 1 or 2 = 2", "([tau] (not (<tau> 1 = 1))) or 2 = 2"),
    ];
    for (short, long) in same {
        assert_eq!(formula(short), formula(long), "{short}");
    }
}

#[test]
fn parentheses_matter() {
    assert_ne!(process("(nil | nil) | out(0, 0)"), process("nil | nil | out(0, 0)"));
    assert_ne!(process("new x. (nil | nil)"), process("new x. nil | nil"));
    assert_ne!(formula("<tau> (1 = 1 and 2 = 2)"), formula("<tau> 1 = 1 and 2 = 2"));
    assert_ne!(formula("1 = 1 and (2 = 2 or 3 = 3)"), formula("1 = 1 and 2 = 2 or 3 = 3"));
}

#[test]
fn trees_by_hand() {
    let output = Process::Output { channel: Term::Name(3), message: Term::Variable(0), then: Box::new(Process::Nil) };
    let par = Process::Par(Box::new(Process::New(Box::new(output))), Box::new(Process::Nil));
    assert_eq!(process("new x. out(3, x) | nil"), par);

    let equal = Formula::Equal(Term::Dec(Box::new(Term::Variable(0)), Box::new(Term::Name(4))), Term::Name(5));
    let step = Formula::OutputStep { channel: Term::Name(3), body: Box::new(Formula::Not(Box::new(equal))) };
    assert_eq!(formula("<out 3 x> dec(x, 4) != 5"), step);
}
