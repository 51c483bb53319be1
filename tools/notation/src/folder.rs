//! A finding as a folder: `finding.txt`, and the three slices that are judged.

use crate::decoding::{self, Refusal};
use crate::fault::Fault;
use crate::rules::LONGEST;
use crate::text::is_unseen;
use crate::{print, reading, text, Finding, Reading};
use std::fs::{self, File};
use std::io::{ErrorKind, Read};
use std::path::Path;

/// The files of the slices, in the order of the slices.
pub const FILES: [&str; 3] = ["first.bin", "second.bin", "formula.bin"];

/// A text has so many bytes at most: many times as many as slices within the rules need.
const LONGEST_TEXT: usize = 1 << 20;

/// What is to be said of a folder, a line each.
pub type Lines = Vec<String>;

/// A finding as it is judged: what `finding.txt` says where there is one, and else the files of bytes.
#[derive(Debug)]
pub struct Loaded {
    pub slices: [Vec<u8>; 3],
    /// Where the finding is written in words.
    pub text: Option<Finding>,
    /// What is to be said beside the answer: files that are missing.
    pub notes: Lines,
    /// Where the text breaks rules of the reader.
    pub faults: Lines,
    /// What is doubtful in the text.
    pub warnings: Lines,
}

/// Loads what is to be judged, or says why nothing is. `mend` is the command that writes the files of bytes anew.
pub fn load(folder: &Path, mend: &str) -> Result<Loaded, Lines> {
    is_folder(folder)?;
    match written(folder)? {
        Some(reading) => load_text(folder, mend, reading),
        None => load_bytes(folder),
    }
}

/// The finding written in a folder, and what is doubtful in it.
pub fn finding(folder: &Path) -> Result<(Finding, Lines), Lines> {
    is_folder(folder)?;
    let missing = || vec![format!("{}: there is none", folder.join("finding.txt").display())];
    let reading = written(folder)?.ok_or_else(missing)?;
    let warnings = lines(folder, "warning: ", &reading.warnings);
    match reading.finding {
        Some(finding) if reading.faults.is_empty() => Ok((finding, warnings)),
        _ => Err(lines(folder, "", &reading.faults)),
    }
}

/// Where the files differ from the finding's slices; none where they agree.
pub fn differences(folder: &Path, finding: &Finding) -> Result<Lines, Lines> {
    let slices = finding.slices.iter().map(|slice| &slice.bytes);
    let compared = FILES.iter().zip(slices).map(|(file, wanted)| {
        let found = slice(folder, file, wanted.len())?;
        let what = found.map_or(Some("it is missing".to_string()), |found| difference(wanted, &found));
        Ok(what.map(|what| format!("{}: {what}", folder.join(file).display())))
    });
    let compared: Result<Vec<Option<String>>, String> = compared.collect();
    compared.map(|compared| compared.into_iter().flatten().collect()).map_err(|line| vec![line])
}

/// The notation of the three files.
pub fn printed(folder: &Path) -> Result<String, Lines> {
    is_folder(folder)?;
    let refused = |file: &str, refusal: Refusal| vec![format!("{}: {refusal}", folder.join(file).display())];
    let bytes = |file: &str| match slice(folder, file, LONGEST) {
        Ok(Some(bytes)) => Ok(bytes),
        Ok(None) => Err(vec![format!("{}: it is missing", folder.join(file).display())]),
        Err(line) => Err(vec![line]),
    };
    let model = |file: &str| decoding::process(&bytes(file)?).map_err(|refusal| refused(file, refusal));
    let formula = |file: &str| decoding::formula(&bytes(file)?).map_err(|refusal| refused(file, refusal));
    Ok(print::finding(&model(FILES[0])?, &model(FILES[1])?, &formula(FILES[2])?))
}

fn is_folder(folder: &Path) -> Result<(), Lines> {
    match fs::metadata(folder) {
        Ok(data) if data.is_dir() => Ok(()),
        Ok(_) => Err(vec![format!("{} is no folder", folder.display())]),
        Err(error) if error.kind() == ErrorKind::NotFound => {
            let name = if folder.as_os_str().is_empty() { "''".to_string() } else { folder.display().to_string() };
            Err(vec![format!("there is no folder {name}")])
        }
        Err(error) => Err(vec![format!("{}: {error}", folder.display())]),
    }
}

/// What `finding.txt` is read as, where there is one.
fn written(folder: &Path) -> Result<Option<Reading>, Lines> {
    let told = |what: String| vec![format!("{}: {what}", folder.join("finding.txt").display())];
    let Some(bytes) = contents(folder, "finding.txt", LONGEST_TEXT).map_err(|line| vec![line])? else {
        return Ok(None);
    };
    if bytes.len() > LONGEST_TEXT {
        return Err(told(format!("the text is longer than {LONGEST_TEXT} bytes")));
    }
    text::text(&bytes).map(|text| Some(reading(text))).map_err(told)
}

fn lines(folder: &Path, what: &str, faults: &[Fault]) -> Lines {
    let path = folder.join("finding.txt");
    faults.iter().map(|fault| format!("{}: {what}{fault}", path.display())).collect()
}

fn load_text(folder: &Path, mend: &str, reading: Reading) -> Result<Loaded, Lines> {
    let faults = lines(folder, "", &reading.faults);
    let Some(finding) = reading.finding else { return Err(faults) };
    let old = old(folder, &finding).map_err(|line| vec![line])?;
    if !old.is_empty() {
        let first = if faults.is_empty() { "" } else { "mend the text first; then " };
        let mended = format!("{first}`{mend} {}` writes the files of bytes anew", quoted(folder));
        return Err([faults, old, vec![mended]].concat());
    }
    let slices = finding.slices.clone().map(|slice| slice.bytes);
    let warnings = lines(folder, "warning: ", &reading.warnings);
    Ok(Loaded { slices, text: Some(finding), notes: Vec::new(), faults, warnings })
}

/// The files of bytes that are there and differ from the text.
fn old(folder: &Path, finding: &Finding) -> Result<Lines, String> {
    let mut old = Vec::new();
    for (file, wanted) in FILES.iter().zip(&finding.slices) {
        let found = slice(folder, file, wanted.bytes.len())?;
        if let Some(what) = found.and_then(|found| difference(&wanted.bytes, &found)) {
            old.push(format!("{}: {what}", folder.join(file).display()));
        }
    }
    Ok(old)
}

fn load_bytes(folder: &Path) -> Result<Loaded, Lines> {
    let read = |file: &str| slice(folder, file, LONGEST).map_err(|line| vec![line]);
    let found = [read(FILES[0])?, read(FILES[1])?, read(FILES[2])?];
    if found.iter().all(Option::is_none) {
        let folder = folder.display();
        return Err(vec![format!("there is no finding in {folder}: neither finding.txt nor {}", FILES.join(", "))]);
    }
    let missing = FILES.iter().zip(&found).filter(|(_, bytes)| bytes.is_none());
    let notes = missing.map(|(file, _)| format!("{} is missing, and counts as empty", folder.join(file).display()));
    let notes = notes.collect();
    let slices = found.map(Option::unwrap_or_default);
    Ok(Loaded { slices, text: None, notes, faults: Vec::new(), warnings: Vec::new() })
}

/// The bytes of a slice, at most one more than it may have or is compared with; none if there is no such file.
fn slice(folder: &Path, file: &str, compared: usize) -> Result<Option<Vec<u8>>, String> {
    contents(folder, file, compared.max(LONGEST))
}

/// The bytes of a file, at most one more than asked for; none if there is no such file.
fn contents(folder: &Path, file: &str, most: usize) -> Result<Option<Vec<u8>>, String> {
    let path = folder.join(file);
    if fs::symlink_metadata(&path).is_err_and(|error| error.kind() == ErrorKind::NotFound) {
        return Ok(None);
    }
    let mut bytes = Vec::new();
    // What is no file, a pipe say, may never end.
    let read = match fs::metadata(&path) {
        Ok(data) if !data.is_file() => return Err(format!("{}: it is no file", path.display())),
        Ok(_) => File::open(&path).and_then(|file| file.take(most as u64 + 1).read_to_end(&mut bytes)),
        Err(error) => Err(error),
    };
    read.map(|_| Some(bytes)).map_err(|error| format!("{}: {error}", path.display()))
}

fn difference(wanted: &[u8], found: &[u8]) -> Option<String> {
    let byte = |bytes: &[u8], at: usize| bytes.get(at).map_or("none".to_string(), |byte| format!("{byte:02x}"));
    let length = wanted.len().max(found.len());
    let first = (0..length).find(|at| wanted.get(*at) != found.get(*at))?;
    let (is, should) = (byte(found, first), byte(wanted, first));
    Some(format!(
        "it is not what finding.txt says, first at byte {first}, where it has {is} and finding.txt gives {should}"
    ))
}

/// A path as a word of a command in a shell; `--` before one that could be taken for an option.
pub fn quoted(path: &Path) -> String {
    let bytes = path.as_os_str().as_encoded_bytes();
    let plain = |byte: &u8| byte.is_ascii_alphanumeric() || b"/._-+,=@%".contains(byte);
    let word = match std::str::from_utf8(bytes) {
        Ok(text) if !text.is_empty() && bytes.iter().all(plain) => text.to_string(),
        Ok(text) if !text.chars().any(is_unseen) => format!("'{}'", text.replace('\'', "'\\''")),
        _ => format!("$'{}'", bytes.escape_ascii().to_string().replace("\\\"", "\"")),
    };
    match bytes.first() {
        Some(b'-') => format!("-- {word}"),
        _ => word,
    }
}
