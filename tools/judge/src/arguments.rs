//! The words of a call: which folders are judged, within which budget, and in which form the answers are told.

use crate::help;
use std::ffi::{OsStr, OsString};
use std::path::PathBuf;

/// The budget where none is given; the `answer` line of a finding is meant for it too.
pub const BUDGET: u32 = 1_000_000;

const WRONG_BUDGET: &str = "the budget is a number from 0 to 4294967295";

/// How answers are told.
#[derive(Clone, Copy, Debug, PartialEq, Eq)]
pub enum Form {
    /// The numbers and what they mean.
    Plain,
    /// The numbers alone.
    Quiet,
    /// The numbers, what they mean, and why.
    Why,
}

/// What is to be judged.
#[derive(Clone, Debug, PartialEq, Eq)]
pub struct Task {
    pub budget: u32,
    pub form: Form,
    pub folders: Vec<PathBuf>,
}

#[derive(Clone, Debug, PartialEq, Eq)]
pub enum Call {
    Help,
    Version,
    Judge(Task),
}

/// What a call asks for, or what is wrong with it.
pub fn parse(words: &[OsString]) -> Result<Call, String> {
    match asked(words) {
        Some(call) => Ok(call),
        None => task(words).map(Call::Judge),
    }
}

/// Help and version come before everything else that is asked for, or is wrong.
fn asked(words: &[OsString]) -> Option<Call> {
    words.iter().take_while(|word| *word != "--").find_map(|word| match word.to_str() {
        Some("--help" | "-h") => Some(Call::Help),
        Some("--version") => Some(Call::Version),
        _ => None,
    })
}

fn task(words: &[OsString]) -> Result<Task, String> {
    let (mut budget, mut quiet, mut why, mut folders) = (BUDGET, false, false, Vec::new());
    let mut words = words.iter();
    while let Some(word) = words.next() {
        match word.to_str() {
            Some("--") => folders.extend(words.by_ref().map(PathBuf::from)),
            Some("--quiet") => quiet = true,
            Some("--why") => why = true,
            Some("--budget") => budget = number(words.next().and_then(|word| word.to_str()))?,
            Some(word) if word.starts_with("--budget=") => budget = number(word.strip_prefix("--budget="))?,
            _ if starts_with_dash(word) => return Err(no_option(word)),
            _ => folders.push(PathBuf::from(word)),
        }
    }
    if folders.is_empty() {
        return Err(format!("no folder is given\n{}", help::usage()));
    }
    Ok(Task { budget, form: form(quiet, why)?, folders })
}

fn form(quiet: bool, why: bool) -> Result<Form, String> {
    match (quiet, why) {
        (true, true) => Err(format!("--quiet and --why do not go together\n{}", help::usage())),
        (true, false) => Ok(Form::Quiet),
        (false, true) => Ok(Form::Why),
        (false, false) => Ok(Form::Plain),
    }
}

/// A budget in decimal digits and nothing else.
fn number(word: Option<&str>) -> Result<u32, String> {
    let digits = word.filter(|word| word.bytes().all(|byte| byte.is_ascii_digit()));
    digits.and_then(|digits| digits.parse().ok()).ok_or(WRONG_BUDGET.to_string())
}

fn starts_with_dash(word: &OsStr) -> bool {
    word.as_encoded_bytes().starts_with(b"-")
}

fn no_option(word: &OsStr) -> String {
    let word = word.to_string_lossy();
    format!("there is no option {word}; a folder of that name is judged with ./{word} or -- {word}")
}
