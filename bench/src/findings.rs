//! The findings that are timed. In each the formula is false of both models, so that every step is looked at in both.

use crate::build::*;
use comparison::encoding;
use second_checker::syntax::{Formula, Process};
use std::path::Path;

/// A finding as bytes, with the budget that it is judged with.
pub struct Finding {
    pub title: String,
    pub first: Vec<u8>,
    pub second: Vec<u8>,
    pub formula: Vec<u8>,
    pub budget: u32,
}

impl Finding {
    fn of(title: impl Into<String>, model: &Process, formula: &Formula) -> Finding {
        let model = encoding::process(model);
        Finding {
            title: title.into(),
            second: model.clone(),
            first: model,
            formula: encoding::formula(formula),
            budget: 20_000,
        }
    }
}

/// Case 9: the ePassport of document 003.
pub fn epassport() -> Finding {
    let folder = Path::new(env!("CARGO_MANIFEST_DIR")).join("../examples/epassport");
    let bytes = |file: &str| std::fs::read(folder.join(file)).expect("examples/epassport has its three files");
    Finding {
        title: "case 9, the ePassport".into(),
        first: bytes("first.bin"),
        second: bytes("second.bin"),
        formula: bytes("formula.bin"),
        budget: 1_000_000,
    }
}

/// So many threads that take and then send, each under a message of a depth; three of them take, and one sends.
fn takers(threads: usize, depth: u32) -> Process {
    all((0..threads)
        .map(|i| {
            let channel = name((i % 4) as u16);
            let sent = pair(variable(0), variable(1));
            bind(tree(depth), input(channel.clone(), output(channel, sent, nil())))
        })
        .collect())
}

fn three_taken() -> Formula {
    takes(0, 9, takes(1, 9, takes(2, 9, sends(0, not(yes())))))
}

pub fn large_states() -> Finding {
    Finding::of("30 threads with long messages", &takers(30, 4), &three_taken())
}

/// Senders and takers on one channel, which all can meet.
pub fn silent_steps() -> Finding {
    let senders = (0..8).map(|i| output(name(0), name(i), nil()));
    let takers = (0..8).map(|_| input(name(0), nil()));
    let model = all(senders.chain(takers).collect());
    Finding::of("8 senders and 8 takers, silent", &model, &times(3, silent, not(yes())))
}

/// Repl inside repl, with a private name in every second one.
fn nested(depth: usize) -> Process {
    let session = par(output(name(0), name(1), nil()), input(name(0), nil()));
    (0..depth).fold(session, |inner, i| repl(if i % 2 == 0 { inner } else { new(inner) }))
}

pub fn deep_replication() -> Finding {
    Finding::of("6 nested repl, visible", &nested(6), &times(3, |f| sends(0, f), takes(0, 5, not(yes()))))
}

pub fn deep_replication_silent() -> Finding {
    Finding::of("4 nested repl, silent", &nested(4), &times(2, silent, sends(0, not(yes()))))
}

pub fn with_threads(threads: usize) -> Finding {
    Finding::of(threads.to_string(), &takers(threads, 1), &three_taken())
}

/// Eight threads, each with a message of so many nodes.
pub fn with_messages(depth: u32) -> Finding {
    Finding::of(((1 << (depth + 1)) - 1).to_string(), &takers(8, depth), &three_taken())
}

/// One step, under so many negations.
pub fn with_formula(depth: usize) -> Finding {
    let body = times(depth, not, yes());
    Finding::of(depth.to_string(), &takers(8, 1), &takes(0, 9, body))
}

/// One step, and so many conjuncts behind it, the first one innermost, each of them 47 bytes long.
pub fn with_conjuncts(count: usize) -> Finding {
    let conjunct = || equal(tree(3), tree(3));
    let body = (1..count).fold(conjunct(), |left, _| and(left, conjunct()));
    Finding::of(count.to_string(), &takers(8, 1), &takes(0, 9, body))
}

/// Sessions of a repl that go on for so many bytes behind their first output, which is all that is judged.
pub fn with_model(bytes: usize) -> Finding {
    let mut rest = nil();
    let session = |rest: Process| repl(par(output(name(0), name(1), rest), input(name(1), nil())));
    while encoding::process(&session(rest.clone())).len() + 7 <= bytes {
        rest = par(output(name(2), name(3), nil()), rest);
    }
    let model = session(flat(rest));
    let session = times(3, |f| takes(1, 5, f), not(yes()));
    Finding::of(encoding::process(&model).len().to_string(), &model, &times(5, twice, session))
}

/// A formula twice, with "and" between.
fn twice(formula: Formula) -> Formula {
    and(formula.clone(), formula)
}

/// The same parallel outputs, nested as a balanced tree.
fn flat(chain: Process) -> Process {
    let mut parts = Vec::new();
    let mut rest = chain;
    while let Process::Par(left, right) = rest {
        parts.push(*left);
        rest = *right;
    }
    balanced(parts)
}

/// Two models of 4,096 bytes and a formula that ends early: all that can be done is to read.
pub fn reading() -> Finding {
    let outputs = vec![output(name(2), name(3), nil()); 585];
    let model = new(balanced(outputs));
    let mut finding = Finding::of("", &model, &yes());
    finding.formula.pop();
    finding
}
