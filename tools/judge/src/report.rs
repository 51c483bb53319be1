//! What is printed of each folder, in the form that the call asks for, and of all of them.

use crate::answer_line::{compare, Comparison};
use crate::arguments::{Form, Task};
use crate::judging::{judge, Judged};
use crate::meaning::{sentence, words};
use crate::notes::say;
use crate::summary::{Outcome, Summary};
use crate::why::{explain, Explanation};
use notation::text::shown;
use std::io::{self, Write};
use std::path::Path;

/// How one folder is told.
#[derive(Clone, Copy, Debug, PartialEq, Eq)]
enum Shape {
    /// The four numbers alone.
    Numbers,
    /// One folder: the numbers, the sentence, and the reasons if they are asked for.
    Whole,
    /// One line for each folder.
    Line,
    /// The same as the whole, below the name of the folder.
    Titled,
}

/// Judges every folder, prints the answers, and says beside them what is to be said. `mend` is the command that writes
/// files of bytes anew.
pub fn run(task: &Task, mend: &str, out: &mut dyn Write) -> io::Result<Summary> {
    let shape = shape(task);
    let mut summary = Summary::default();
    for folder in &task.folders {
        let judged = judge(folder, task.budget, mend);
        beside(&judged, shape);
        let judged = judged.ok();
        let agreed = tell(task, shape, folder, judged.as_ref(), out)?;
        let misstated = judged.as_ref().is_some_and(|judged| is_misstated(folder, judged, task.budget));
        summary.add(if agreed { outcome(judged.as_ref()) } else { Outcome::Without }, misstated);
    }
    if matches!(shape, Shape::Line | Shape::Titled) {
        writeln!(out, "{summary}")?;
    }
    out.flush()?;
    Ok(summary)
}

fn shape(task: &Task) -> Shape {
    match (task.form, task.folders.len()) {
        (Form::Quiet, _) => Shape::Numbers,
        (_, 1) => Shape::Whole,
        (Form::Plain, _) => Shape::Line,
        (Form::Why, _) => Shape::Titled,
    }
}

/// The name of a folder, in one line.
fn name(folder: &Path) -> String {
    shown(&folder.display().to_string())
}

fn outcome(judged: Option<&Judged>) -> Outcome {
    match judged.map(|judged| judged.answer.result) {
        Some(0) => Outcome::Accepted,
        Some(_) => Outcome::Other,
        None => Outcome::Without,
    }
}

/// What is said before the answer, or why there is none. Who asks for numbers alone is not warned; and where the answer
/// has a sentence, that tells the one place where a rule is broken.
fn beside(judged: &Result<Judged, Vec<String>>, shape: Shape) {
    match judged {
        Ok(Judged { loaded, .. }) => {
            let in_sentence = matches!(shape, Shape::Whole | Shape::Titled) && loaded.faults.len() == 1;
            let faults = loaded.faults.iter().filter(|_| !in_sentence);
            let warnings = loaded.warnings.iter().filter(|_| shape != Shape::Numbers);
            loaded.notes.iter().chain(faults).chain(warnings).for_each(|note| say(note));
        }
        Err(reasons) => reasons.iter().for_each(|reason| say(reason)),
    }
}

/// Compares the `answer` line, says where it differs, and whether it does.
fn is_misstated(folder: &Path, judged: &Judged, budget: u32) -> bool {
    let line = judged.loaded.text.as_ref().and_then(|text| text.answer.map(|(numbers, _)| numbers));
    match compare(&folder.join("finding.txt").display().to_string(), line, judged.answer, budget) {
        Comparison::Fine => false,
        Comparison::Unknown(note) => {
            say(&note);
            false
        }
        Comparison::Differs(message) => {
            say(&message);
            true
        }
    }
}

/// Tells one folder; false where the second checker disagrees.
fn tell(task: &Task, shape: Shape, folder: &Path, judged: Option<&Judged>, out: &mut dyn Write) -> io::Result<bool> {
    match (shape, judged) {
        (Shape::Numbers, Some(judged)) => writeln!(out, "{}", judged.answer)?,
        (Shape::Numbers, None) => writeln!(out, "- - - -")?,
        (Shape::Whole, Some(judged)) => return whole(task, folder, judged, out),
        (Shape::Whole, None) => {}
        (Shape::Line, Some(judged)) => writeln!(out, "{}: {}, {}", name(folder), judged.answer, words(judged.answer))?,
        (Shape::Line, None) => writeln!(out, "{}: no answer", name(folder))?,
        (Shape::Titled, judged) => return titled(task, folder, judged, out),
    }
    Ok(true)
}

fn whole(task: &Task, folder: &Path, judged: &Judged, out: &mut dyn Write) -> io::Result<bool> {
    let Judged { loaded, answer } = judged;
    let why = task.form == Form::Why;
    writeln!(out, "{answer}\n{}", sentence(*answer, loaded, !why))?;
    if !why {
        return Ok(true);
    }
    // The answer is there while the reasons are looked for.
    out.flush()?;
    tell_why(folder, &explain(folder, loaded, *answer, task.budget), out)
}

/// Tells an explanation, or says that there is none because the second checker disagrees; then false.
pub fn tell_why(folder: &Path, explanation: &Explanation, out: &mut dyn Write) -> io::Result<bool> {
    match explanation {
        Explanation::Told(lines) => lines.iter().try_for_each(|line| writeln!(out, "{line}")).map(|()| true),
        Explanation::Disagrees(message) => {
            say(&format!("{}: {message}", folder.display()));
            Ok(false)
        }
    }
}

fn titled(task: &Task, folder: &Path, judged: Option<&Judged>, out: &mut dyn Write) -> io::Result<bool> {
    writeln!(out, "{}:", name(folder))?;
    let agreed = match judged {
        Some(judged) => whole(task, folder, judged, out)?,
        None => writeln!(out, "no answer").map(|()| true)?,
    };
    writeln!(out)?;
    Ok(agreed)
}
