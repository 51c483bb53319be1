//! The program `encode` on folders.

use notation::folder::{load, quoted};
use std::ffi::OsStr;
use std::fs;
use std::ops::Deref;
use std::os::unix::ffi::OsStrExt;
use std::os::unix::fs::{symlink, PermissionsExt};
use std::path::{Path, PathBuf};
use std::process::{Command, Output};
use std::thread::sleep;
use std::time::Duration;

const FINDING: &str = "# It shows nothing.\nnames c = 0\nfirst nil\nsecond out(c, c)\nformula not <out c _> true\n";

/// A folder for one test, gone when the test ends: `rt ci` takes no checkout with links in it.
struct Folder(PathBuf);

impl Deref for Folder {
    type Target = PathBuf;

    fn deref(&self) -> &PathBuf {
        &self.0
    }
}

impl Drop for Folder {
    fn drop(&mut self) {
        let _ = fs::remove_dir_all(&self.0);
    }
}

/// A folder of this name, which holds nothing but `finding.txt`.
fn folder(name: &str, finding: &str) -> Folder {
    let path = PathBuf::from(env!("CARGO_TARGET_TMPDIR")).join(name);
    let _ = fs::remove_dir_all(&path);
    fs::create_dir_all(&path).expect("a folder for the test");
    fs::write(path.join("finding.txt"), finding).expect("a finding for the test");
    Folder(path)
}

fn encode(arguments: &[&str]) -> Output {
    Command::new(env!("CARGO_BIN_EXE_encode")).args(arguments).output().expect("encode runs")
}

fn said(output: &Output) -> String {
    String::from_utf8_lossy(&output.stdout).into_owned() + &String::from_utf8_lossy(&output.stderr)
}

#[test]
fn writes_compares_and_prints() {
    let path = folder("writes", FINDING);
    let name = path.to_str().expect("a path in UTF-8");
    let written = encode(&[name]);
    assert!(written.status.success(), "{}", said(&written));
    assert_eq!(fs::read(path.join("first.bin")).ok(), Some(vec![0]));
    assert_eq!(fs::read(path.join("second.bin")).ok(), Some(vec![2, 0, 0, 0, 0, 0]));
    assert_eq!(fs::read(path.join("formula.bin")).ok(), Some(vec![1, 3, 0, 0, 0, 0, 0, 0, 0]));

    let same = encode(&["--check", name]);
    assert!(same.status.success() && said(&same).is_empty(), "{}", said(&same));
    let printed = said(&encode(&["--print", name]));
    assert_eq!(printed, "first\n  nil\n\nsecond\n  out(0, 0)\n\nformula\n  not <out 0 _> true\n");
}

#[test]
fn says_which_bytes_differ() {
    let path = folder("differs", FINDING);
    let name = path.to_str().expect("a path in UTF-8");
    encode(&[name]);
    fs::write(path.join("first.bin"), [7, 0]).expect("a changed slice");
    fs::remove_file(path.join("formula.bin")).expect("a slice less");

    let checked = encode(&["--check", name]);
    assert_eq!(checked.status.code(), Some(1));
    let said = said(&checked);
    let differs = "first at byte 0, where it has 07 and finding.txt gives 00";
    assert!(said.contains(&format!("first.bin: it is not what finding.txt says, {differs}")), "{said}");
    assert!(said.contains("formula.bin: it is missing") && !said.contains("second.bin"), "{said}");
    assert_eq!(fs::read(path.join("first.bin")).ok(), Some(vec![7, 0]));
}

#[test]
fn says_where_a_fault_is() {
    let path = folder("fault", "first\n  out(c, c)\n");
    let output = encode(&[path.to_str().expect("a path in UTF-8")]);
    assert_eq!(output.status.code(), Some(1));
    assert!(said(&output).contains("finding.txt: line 2, column 7: unknown word `c`"), "{}", said(&output));
    assert!(!path.join("first.bin").exists());
}

#[test]
fn refused_slices_are_not_printed() {
    let path = folder("refused", FINDING);
    let name = path.to_str().expect("a path in UTF-8");
    encode(&[name]);
    fs::write(path.join("second.bin"), [8]).expect("a changed slice");
    let output = encode(&["--print", name]);
    assert_eq!(output.status.code(), Some(1));
    assert!(
        said(&output).contains("second.bin: refused by rule 4, at byte 0: no such kind is listed"),
        "{}",
        said(&output)
    );
}

#[test]
fn tells_how_it_is_used() {
    let wrong = ["", "--check", "--other folder", "--print --", "folder --check --print"];
    for arguments in wrong.map(|words| words.split_whitespace().collect::<Vec<&str>>()) {
        let output = encode(&arguments);
        assert_eq!((output.status.code(), output.stdout.len()), (Some(2), 0));
    }
    let help = encode(&["--help"]);
    assert!(help.status.success() && help.stderr.is_empty() && said(&help).contains("--check"), "{}", said(&help));
    let version = encode(&["--version"]);
    assert_eq!((version.status.code(), said(&version)), (Some(0), format!("encode {}\n", env!("CARGO_PKG_VERSION"))));
}

/// With a fault, or where one file cannot be written, none is, and nothing else is left behind.
#[test]
fn writes_all_three_files_or_none() {
    let path = folder("none", FINDING);
    let name = path.to_str().expect("a path in UTF-8");
    encode(&[name]);
    let before = files(&path);
    let deep = format!("first {}nil second nil formula true", "repl ".repeat(64));
    for text in ["first nil second nil formula", "first out(0, x) second nil formula true", &deep] {
        fs::write(path.join("finding.txt"), text).expect("another finding");
        assert_eq!(encode(&[name]).status.code(), Some(1));
        fs::write(path.join("finding.txt"), FINDING).expect("the finding again");
        assert_eq!(files(&path), before);
    }
    fs::remove_file(path.join("formula.bin")).expect("a slice less");
    fs::create_dir_all(path.join("formula.bin/full")).expect("a folder in its place");
    fs::write(path.join("finding.txt"), "first repl nil second nil formula true").expect("another finding");
    let output = encode(&[name]);
    assert_eq!(output.status.code(), Some(1));
    assert!(said(&output).contains("formula.bin: it is no file; nothing is written"), "{}", said(&output));
    assert_eq!(fs::read(path.join("first.bin")).ok(), Some(vec![0]));
    assert_eq!(fs::read_dir(&*path).expect("the folder").count(), 4);
}

/// Files that may not be written to are left alone, all three; those that may keep their rights.
#[test]
fn rights_of_files() {
    let path = folder("rights", FINDING);
    let name = path.to_str().expect("a path in UTF-8");
    encode(&[name]);
    let set = |file: &str, mode: u32| {
        fs::set_permissions(path.join(file), fs::Permissions::from_mode(mode)).expect("other rights");
    };
    set("first.bin", 0o600);
    set("second.bin", 0o444);
    fs::write(path.join("finding.txt"), "first repl nil second nil formula true").expect("another finding");
    let output = encode(&[name]);
    assert_eq!(output.status.code(), Some(1));
    assert!(said(&output).contains("second.bin: it may not be written to; nothing is written"), "{}", said(&output));
    assert_eq!(fs::read(path.join("first.bin")).ok(), Some(vec![0]));
    set("second.bin", 0o640);
    assert!(encode(&[name]).status.success());
    let mode = |file: &str| fs::metadata(path.join(file)).expect("a file").permissions().mode() & 0o777;
    assert_eq!((mode("first.bin"), mode("second.bin")), (0o600, 0o640));
    assert_eq!(fs::read(path.join("first.bin")).ok(), Some(vec![7, 0]));
}

/// A link stays one, and what it leads to is written; one that leads nowhere is in the way.
#[test]
fn links_to_files() {
    let (path, elsewhere) = (folder("links", FINDING), folder("elsewhere", ""));
    let name = path.to_str().expect("a path in UTF-8");
    fs::write(elsewhere.join("kept.bin"), [9]).expect("a file to be written");
    symlink(elsewhere.join("kept.bin"), path.join("first.bin")).expect("a link");
    symlink("nowhere", path.join("second.bin")).expect("a link");
    let output = encode(&[name]);
    assert!(
        said(&output).contains("second.bin: ") && said(&output).contains("nothing is written"),
        "{}",
        said(&output)
    );
    assert_eq!(fs::read(elsewhere.join("kept.bin")).ok(), Some(vec![9]));
    fs::remove_file(path.join("second.bin")).expect("a link less");
    assert!(encode(&[name]).status.success());
    assert_eq!(fs::read(elsewhere.join("kept.bin")).ok(), Some(vec![0]));
    assert!(fs::symlink_metadata(path.join("first.bin")).expect("a link").is_symlink());
    assert_eq!(fs::read_dir(&*elsewhere).expect("the folder").count(), 2);
}

/// Files that lead to each other, or to the text, are left alone.
#[test]
fn links_to_one_file() {
    for (name, links) in [
        ("one", [("first.bin", "shared"), ("second.bin", "shared")]),
        ("other", [("first.bin", "second.bin"), ("unused", "shared")]),
        ("text", [("first.bin", "finding.txt"), ("unused", "shared")]),
    ] {
        let path = folder(name, FINDING);
        fs::write(path.join("shared"), "old").expect("a file");
        fs::write(path.join("second.bin"), "old").expect("a file");
        for (link, to) in links {
            let _ = fs::remove_file(path.join(link));
            symlink(to, path.join(link)).expect("a link");
        }
        let before = files(&path);
        let output = encode(&[path.to_str().expect("a path in UTF-8")]);
        assert_eq!(output.status.code(), Some(1), "{name}");
        assert!(
            said(&output).contains("it leads to another file of the finding; nothing is written"),
            "{}",
            said(&output)
        );
        assert_eq!(files(&path), before, "{name}");
    }
}

/// While another program has a lock on the text, nothing is read or written.
#[test]
fn waits_for_its_turn() {
    let path = folder("turn", FINDING);
    let text = fs::File::open(path.join("finding.txt")).expect("the text");
    text.lock().expect("a lock");
    let mut waiting = Command::new(env!("CARGO_BIN_EXE_encode")).arg(&*path).spawn().expect("encode runs");
    sleep(Duration::from_millis(300));
    assert!(waiting.try_wait().expect("its state").is_none() && !path.join("first.bin").exists());
    fs::write(path.join("finding.txt"), "first repl nil second nil formula true").expect("another finding");
    text.unlock().expect("no lock any more");
    assert!(waiting.wait().expect("its end").success());
    assert_eq!(fs::read(path.join("first.bin")).ok(), Some(vec![7, 0]), "the text as it is when its turn comes");
}

/// What an interrupted call has left beside the files is gone after the next, and leads it nowhere.
#[test]
fn what_was_left_behind() {
    let path = folder("left", FINDING);
    fs::write(path.join("victim"), "kept").expect("a file");
    symlink("victim", path.join(".first.bin.encode-new")).expect("a link");
    fs::write(path.join(".second.bin.encode-old"), [1]).expect("something left");
    assert!(encode(&[path.to_str().expect("a path in UTF-8")]).status.success());
    assert_eq!(fs::read_dir(&*path).expect("the folder").count(), 5);
    assert_eq!(fs::read_to_string(path.join("victim")).ok().as_deref(), Some("kept"));
}

/// The names of the files in a folder, with their bytes.
fn files(path: &Path) -> Vec<(String, Vec<u8>)> {
    let entries = fs::read_dir(path).expect("the folder").map(|entry| entry.expect("a file"));
    let mut files: Vec<_> = entries
        .map(|entry| (entry.file_name().to_string_lossy().into_owned(), fs::read(entry.path()).expect("its bytes")))
        .collect();
    files.sort();
    files
}

#[test]
fn folders_of_any_name() {
    let path = folder("-x", FINDING);
    let parent = path.parent().expect("the folder around");
    let run = |arguments: &[&str]| {
        let output = Command::new(env!("CARGO_BIN_EXE_encode")).args(arguments).current_dir(parent).output();
        output.expect("encode runs")
    };
    let wrong = run(&["-x"]);
    assert_eq!(wrong.status.code(), Some(2));
    assert!(said(&wrong).contains("there is no option -x; a folder of that name is given as ./-x, or behind `--`"));
    assert!(run(&["--", "-x"]).status.success());
    assert!(run(&["--check", "./-x"]).status.success());
    assert!(run(&["./-x", "--check"]).status.success(), "options may stand behind folders");
    for (name, words) in [("nowhere", "there is no folder nowhere"), ("-x/finding.txt", "-x/finding.txt is no folder")]
    {
        let output = run(&["--", name]);
        assert_eq!(output.status.code(), Some(1));
        assert!(said(&output).contains(words), "{}", said(&output));
    }
}

#[test]
fn warns_and_writes() {
    let path = folder("warns", "first new k. nil second nil formula true");
    let output = encode(&[path.to_str().expect("a path in UTF-8")]);
    assert!(output.status.success() && output.stdout.is_empty());
    assert!(said(&output).contains("finding.txt: warning: line 1, column 11: the word `k` is not used"));
    assert!(path.join("first.bin").exists());
}

/// What is judged: the text where there is one, and the bytes beside it only if they are the same.
#[test]
fn what_is_loaded() {
    let path = folder("loaded", FINDING);
    let loaded = || load(&path, "encode");
    assert_eq!(loaded().map(|loaded| loaded.slices[0].clone()), Ok(vec![0]), "without files of bytes");
    encode(&[path.to_str().expect("a path in UTF-8")]);
    assert_eq!(loaded().map(|loaded| (loaded.text.is_some(), loaded.notes)), Ok((true, vec![])));
    fs::write(path.join("second.bin"), [0]).expect("an old slice");
    let old = loaded().map(|_| ()).expect_err("an old slice");
    let mend = format!("`encode {}` writes the files of bytes anew", path.display());
    assert!(old[0].contains("second.bin: it is not what finding.txt says") && old[1] == mend, "{old:?}");
    fs::remove_file(path.join("finding.txt")).expect("bytes alone");
    assert_eq!(loaded().map(|loaded| (loaded.text.is_some(), loaded.slices[1].clone())), Ok((false, vec![0])));
    fs::remove_file(path.join("first.bin")).expect("two files of bytes");
    let notes = loaded().expect("a missing file counts as empty").notes;
    assert!(notes.len() == 1 && notes[0].ends_with("first.bin is missing, and counts as empty"), "{notes:?}");
    fs::create_dir(path.join("first.bin")).expect("a folder in its place");
    assert!(loaded().map(|_| ()).expect_err("it cannot be read")[0].contains("first.bin: "));
}

/// A text whose bytes break a rule is judged all the same; what is said comes along.
#[test]
fn what_breaks_a_rule_is_loaded() {
    let path = folder("rule", &format!("first {}nil second nil formula true", "repl ".repeat(64)));
    let loaded = load(&path, "encode").expect("its bytes");
    assert_eq!(loaded.slices[0].len(), 65);
    assert!(
        loaded.faults.len() == 1 && loaded.faults[0].contains("column 327: nested too deep"),
        "{:?}",
        loaded.faults
    );
    let path = folder("rules", &format!("first {0}nil second {0}nil formula true", "repl ".repeat(64)));
    assert_eq!(load(&path, "encode").expect("its bytes").faults.len(), 2);
    fs::write(path.join("first.bin"), [0]).expect("an old slice");
    let old = load(&path, "encode").map(|_| ()).expect_err("an old slice");
    assert!(old.len() == 4 && old[3].starts_with("mend the text first; then `encode "), "{old:?}");
}

/// A text of a length that no finding has is not read.
#[test]
fn long_texts() {
    let path = folder("long", &format!("{FINDING}{}", " ".repeat(1 << 20)));
    let output = encode(&[path.to_str().expect("a path in UTF-8")]);
    assert_eq!(output.status.code(), Some(1));
    assert!(said(&output).contains("finding.txt: the text is longer than 1048576 bytes"), "{}", said(&output));
}

/// A path as a word of a command that names it again.
#[test]
fn quoted_paths() {
    for (path, word) in [
        ("examples/epassport", "examples/epassport"),
        ("two words", "'two words'"),
        ("it's", "'it'\\''s'"),
        ("", "''"),
        ("-x", "-- -x"),
        ("- x", "-- '- x'"),
        ("\u{1b}[1m", "$'\\x1b[1m'"),
    ] {
        assert_eq!(quoted(Path::new(path)), word);
    }
    assert_eq!(quoted(Path::new(OsStr::from_bytes(b"caf\xe9"))), "$'caf\\xe9'");
}
