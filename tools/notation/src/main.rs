//! Turns `finding.txt` into the three slices that are judged, compares them, or prints slices as notation.

use notation::arguments::{parse, Call, Task};
use notation::folder::{self, Lines};
use notation::text::shown;
use notation::writing;
use std::io::{ErrorKind, Write};
use std::path::Path;
use std::process::ExitCode;

const HELP: &str = include_str!("help.txt");
const VERSION: &str = concat!("encode ", env!("CARGO_PKG_VERSION"), "\n");

/// The status where the call is wrong, or the answer cannot be written.
const WRONG: u8 = 2;

fn main() -> ExitCode {
    let status = match parse(std::env::args_os().skip(1).collect()) {
        Ok(Call::Help) => {
            say(HELP);
            0
        }
        Ok(Call::Version) => {
            say(VERSION);
            0
        }
        Ok(Call::Folders(task, folders)) => {
            let fine = folders.iter().filter(|folder| run(task, folder)).count();
            u8::from(fine < folders.len())
        }
        Err(message) => {
            complain(&[message]);
            let _ = writeln!(std::io::stderr(), "{}", HELP.split("\n\n").next().unwrap_or(HELP));
            WRONG
        }
    };
    ExitCode::from(status)
}

/// True where nothing is amiss in a folder.
fn run(task: Task, folder: &Path) -> bool {
    let done = match task {
        Task::Write => write(folder),
        Task::Check => check(folder),
        Task::Print => folder::printed(folder).map(|text| {
            say(&text);
            true
        }),
    };
    done.unwrap_or_else(|lines| {
        complain(&lines);
        false
    })
}

fn write(path: &Path) -> Result<bool, Lines> {
    let _lock = writing::lock(path)?;
    let (finding, warnings) = folder::finding(path)?;
    complain(&warnings);
    writing::write(path, &finding).map(|()| true)
}

fn check(path: &Path) -> Result<bool, Lines> {
    let (finding, warnings) = folder::finding(path)?;
    complain(&warnings);
    let differences = folder::differences(path, &finding)?;
    for difference in &differences {
        say(&format!("{}\n", shown(difference)));
    }
    Ok(differences.is_empty())
}

/// Says lines on standard error. Where that cannot be written to, there is nobody to tell.
fn complain(lines: &[String]) {
    for line in lines {
        let _ = writeln!(std::io::stderr(), "encode: {}", shown(line));
    }
}

/// Says a text on standard output. Where that cannot be written to, nothing further is done; whoever closed a pipe knows.
fn say(text: &str) {
    let mut out = std::io::stdout();
    if let Err(error) = out.write_all(text.as_bytes()).and_then(|()| out.flush()) {
        if error.kind() != ErrorKind::BrokenPipe {
            complain(&[format!("standard output: {error}")]);
        }
        std::process::exit(i32::from(WRONG));
    }
}
