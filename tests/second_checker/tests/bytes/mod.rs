//! Findings as hexadecimal text.
#![allow(dead_code)]

use second_checker::reading;
use second_checker::syntax::{Formula, Process};
use second_checker::verdict::{verdict, Answer};

pub fn hex(text: &str) -> Vec<u8> {
    text.split_whitespace().map(|pair| u8::from_str_radix(pair, 16).expect("two hexadecimal digits")).collect()
}

pub fn model(text: &str) -> Process {
    reading::process(&hex(text)).expect("a well-formed model")
}

pub fn formula(text: &str) -> Formula {
    reading::formula(&hex(text)).expect("a well-formed formula")
}

/// The process at the end of a path: `l` and `r` are the sides of a par, `t` is what follows, or the body of a repl.
pub fn within<'m>(process: &'m Process, path: &str) -> &'m Process {
    path.chars().fold(process, |process, turn| match (process, turn) {
        (Process::Par(left, _), 'l') => left,
        (Process::Par(_, right), 'r') => right,
        (Process::New(then) | Process::Repl(then), 't') => then,
        (Process::Output { then, .. } | Process::Input { then, .. } | Process::Let { then, .. }, 't') => then,
        _ => panic!("no way {turn} from {process:?}"),
    })
}

pub fn answer(result: u32, slice: u32, place: u32, count: u32) -> Answer {
    Answer { result, slice, place, count }
}

/// The verdict with a work buffer of the least length.
pub fn judge(first: &str, second: &str, formula: &str, budget: u32) -> Answer {
    verdict(&hex(first), &hex(second), &hex(formula), &mut vec![1; 65_536], budget)
}

/// Processes side by side, in their order: the pars nest to the left.
pub fn par_of(processes: &[impl AsRef<str>]) -> String {
    let mut text = "06 ".repeat(processes.len() - 1);
    for process in processes {
        text.push_str(process.as_ref());
        text.push(' ');
    }
    text
}
