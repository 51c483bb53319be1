//! Judges findings: `judge [--budget N] [--quiet | --why] FOLDER...`.

use judge::arguments::{parse, Call};
use judge::help::{HELP, VERSION};
use judge::notes::{say, say_wrong};
use judge::report;
use notation::folder::quoted;
use std::ffi::OsString;
use std::io::{self, ErrorKind, Write};
use std::path::Path;
use std::process::ExitCode;

/// The status where there is no answer, or the call is wrong.
const NO_ANSWER: u8 = 2;

fn main() -> ExitCode {
    let words: Vec<OsString> = std::env::args_os().skip(1).collect();
    let status = match parse(&words) {
        Ok(call) => answer(&call).unwrap_or_else(|error| unwritten(&error)),
        Err(message) => {
            say_wrong(&message);
            NO_ANSWER
        }
    };
    ExitCode::from(status)
}

/// Does what the call asks for, and gives the exit status.
fn answer(call: &Call) -> io::Result<u8> {
    let mut out = io::stdout().lock();
    match call {
        Call::Help => out.write_all(HELP.as_bytes()).and_then(|()| out.flush()).map(|()| 0),
        Call::Version => out.write_all(VERSION.as_bytes()).and_then(|()| out.flush()).map(|()| 0),
        Call::Judge(task) => report::run(task, &mend(), &mut out).map(|summary| summary.status()),
    }
}

/// The command that writes files of bytes anew, as the one who calls this program can call it: what the caller says it is,
/// or the program beside this one, by its name alone where that is found.
fn mend() -> String {
    if let Some(path) = std::env::var_os("GUBZSENIL_ENCODE") {
        return quoted(Path::new(&path));
    }
    let beside = std::env::current_exe().ok().map(|path| path.with_file_name("encode")).filter(|path| path.exists());
    let folders = std::env::var_os("PATH").unwrap_or_default();
    let is_found = |path: &Path| std::env::split_paths(&folders).any(|folder| path.parent() == Some(&folder));
    beside.filter(|path| !is_found(path)).map_or("encode".to_string(), |path| quoted(&path))
}

/// Standard output cannot be written to. Whoever closed a pipe knows that.
fn unwritten(error: &io::Error) -> u8 {
    if error.kind() != ErrorKind::BrokenPipe {
        say(&format!("standard output: {error}"));
    }
    NO_ANSWER
}
