//! The folders under `examples`: notation and bytes agree, and the README lists them with their answers.

mod support;

use notation::{folder, Finding};
use std::fs;
use std::path::Path;
use support::{bytes, examples, folders};

/// The finding in a folder, in which nothing is doubtful.
fn finding(folder: &Path) -> Finding {
    let (finding, warnings) = folder::finding(folder).unwrap_or_else(|lines| panic!("{lines:?}"));
    assert!(warnings.is_empty(), "{warnings:?}");
    finding
}

fn answer(folder: &Path) -> [u32; 4] {
    finding(folder).answer.unwrap_or_else(|| panic!("{}: no answer", folder.display())).0
}

#[test]
fn the_notation_gives_the_bytes() {
    for folder in folders() {
        assert_eq!(folder::differences(&folder, &finding(&folder)), Ok(vec![]));
    }
}

/// The notation printed from the bytes reads as the same trees.
#[test]
fn the_bytes_can_be_printed() {
    for folder in folders() {
        let printed = folder::printed(&folder).unwrap_or_else(|lines| panic!("{lines:?}"));
        assert_eq!(bytes(&support::finding(&printed)), bytes(&finding(&folder)));
    }
}

#[test]
fn each_says_first_what_it_shows() {
    for folder in folders() {
        let summary = finding(&folder).summary;
        assert!(summary.ends_with('.'), "{}: {summary:?}", folder.display());
    }
}

/// The table in the README has a row for each folder, which ends with its answer.
#[test]
fn the_readme_lists_each() {
    let readme = fs::read_to_string(examples().join("README.md")).expect("the README of the examples");
    let rows: Vec<&str> = readme.lines().filter(|line| line.starts_with("| [")).collect();
    for folder in folders() {
        let name = folder.file_name().and_then(|name| name.to_str()).expect("a name");
        let start = format!("| [{name}](");
        let end = format!("| `{}` |", answer(&folder).map(|number| number.to_string()).join(" "));
        assert!(rows.iter().any(|row| row.starts_with(&start) && row.ends_with(&end)), "{name}: {end}");
    }
    assert_eq!(rows.len(), folders().len());
}

/// The finding in the README of the repository is an example, without its answer.
#[test]
fn the_first_readme_shows_one() {
    let readme = fs::read_to_string(examples().join("../README.md")).expect("the README");
    let shown = readme.split("```text\n").nth(1).and_then(|rest| rest.split("```").next()).expect("a finding");
    assert_eq!(bytes(&support::finding(shown)), bytes(&finding(&examples().join("replayed_nonce"))));
}
