//! The words of a call.

use judge::arguments::{parse, Call, Form, Task, BUDGET};
use std::ffi::OsString;
use std::path::PathBuf;

const WRONG_BUDGET: &str = "the budget is a number from 0 to 4294967295";

fn call(words: &[&str]) -> Result<Call, String> {
    parse(&words.iter().map(OsString::from).collect::<Vec<OsString>>())
}

fn task(words: &[&str]) -> Task {
    match call(words) {
        Ok(Call::Judge(task)) => task,
        other => panic!("{words:?}: {other:?}"),
    }
}

fn refused(words: &[&str], message: &str) {
    let got = call(words).expect_err(&format!("{words:?}"));
    assert!(got.contains(message), "{words:?}: {got}");
}

fn folders(names: &[&str]) -> Vec<PathBuf> {
    names.iter().map(PathBuf::from).collect()
}

#[test]
fn folders_alone() {
    let wanted = Task { budget: BUDGET, form: Form::Plain, folders: folders(&["b", "a", "b"]) };
    assert_eq!(task(&["b", "a", "b"]), wanted);
}

#[test]
fn options_stand_before_behind_and_between_folders() {
    let wanted = Task { budget: 7, form: Form::Why, folders: folders(&["a", "b"]) };
    assert_eq!(task(&["--budget", "7", "--why", "a", "b"]), wanted);
    assert_eq!(task(&["a", "b", "--why", "--budget=7"]), wanted);
    assert_eq!(task(&["a", "--budget", "7", "b", "--why"]), wanted);
    assert_eq!(task(&["a", "--quiet"]).form, Form::Quiet);
}

#[test]
fn budgets() {
    for (digits, budget) in [("0", 0), ("5", 5), ("0005", 5), ("1000000", BUDGET), ("4294967295", u32::MAX)] {
        assert_eq!(task(&["a", "--budget", digits]).budget, budget);
        assert_eq!(task(&[&format!("--budget={digits}"), "a"]).budget, budget);
    }
    assert_eq!(task(&["--budget", "1", "a", "--budget=2"]).budget, 2, "the last one holds");
}

#[test]
fn budgets_that_are_none() {
    for word in ["", "-1", "+1", " 1", "1 ", "1,000", "1e6", "0x1", "1.0", "4294967296", "99999999999999999999", "a"] {
        refused(&["--budget", word, "a"], WRONG_BUDGET);
        refused(&["a", &format!("--budget={word}")], WRONG_BUDGET);
    }
    refused(&["a", "--budget"], WRONG_BUDGET);
}

#[test]
fn two_dashes_end_the_options() {
    assert_eq!(task(&["--", "-x", "--quiet", "--", "--help"]).folders, folders(&["-x", "--quiet", "--", "--help"]));
    assert_eq!(task(&["a", "--quiet", "--", "-x"]).folders, folders(&["a", "-x"]));
    assert_eq!(task(&["./-x"]).folders, folders(&["./-x"]));
}

#[test]
fn words_that_are_no_options() {
    for word in ["-x", "-", "--other", "--quiet=1", "--budge", "-q"] {
        refused(&["a", word], &format!("a folder of that name is judged with ./{word} or -- {word}"));
    }
}

#[test]
fn calls_without_folders() {
    for words in [&[][..], &["--quiet"], &["--budget", "3"], &["--"]] {
        refused(words, "usage: judge [--budget N] [--quiet | --why] FOLDER...\n       judge --help | --version");
    }
    refused(&["--quiet", "a", "--why"], "usage: judge");
}

#[test]
fn help_and_version_come_first() {
    for words in [&["--help"][..], &["-h"], &["a", "--other", "--help"], &["--help", "--version"]] {
        assert_eq!(call(words), Ok(Call::Help), "{words:?}");
    }
    assert_eq!(call(&["a", "--version"]), Ok(Call::Version));
}

#[cfg(unix)]
#[test]
fn names_need_not_be_utf_8() {
    use std::os::unix::ffi::OsStringExt;
    let name = OsString::from_vec(b"caf\xe9".to_vec());
    let wanted = Task { budget: BUDGET, form: Form::Plain, folders: vec![PathBuf::from(&name)] };
    assert_eq!(parse(&[name]), Ok(Call::Judge(wanted)));
    assert!(parse(&[OsString::from_vec(b"-\xe9".to_vec())]).is_err());
    assert_eq!(parse(&["--budget".into(), OsString::from_vec(b"\xe9".to_vec())]), Err(WRONG_BUDGET.to_string()));
}
