//! The words of a call of `encode`.

use std::ffi::OsString;
use std::path::PathBuf;

/// What is done with each folder.
#[derive(Clone, Copy, Debug, PartialEq, Eq)]
pub enum Task {
    Write,
    Check,
    Print,
}

#[derive(Clone, Debug, PartialEq, Eq)]
pub enum Call {
    Help,
    Version,
    Folders(Task, Vec<PathBuf>),
}

/// What a call asks for, or what is wrong with it. Options may stand before or after folders; `--` ends them.
pub fn parse(words: Vec<OsString>) -> Result<Call, String> {
    let (mut task, mut folders) = (Task::Write, Vec::new());
    let mut words = words.into_iter();
    while let Some(word) = words.next() {
        match word.to_str() {
            Some("--help" | "-h") => return Ok(Call::Help),
            Some("--version") => return Ok(Call::Version),
            Some("--check") => task = only(task, Task::Check)?,
            Some("--print") => task = only(task, Task::Print)?,
            Some("--") => folders.extend(words.by_ref().map(PathBuf::from)),
            _ if word.as_encoded_bytes().starts_with(b"-") => return Err(no_option(&word.to_string_lossy())),
            _ => folders.push(PathBuf::from(word)),
        }
    }
    match folders.is_empty() {
        true => Err("no folder is given".to_string()),
        false => Ok(Call::Folders(task, folders)),
    }
}

fn only(before: Task, task: Task) -> Result<Task, String> {
    match before {
        Task::Write => Ok(task),
        _ if before == task => Ok(task),
        _ => Err("--check and --print do not go together".to_string()),
    }
}

fn no_option(word: &str) -> String {
    format!("there is no option {word}; a folder of that name is given as ./{word}, or behind `--`")
}
