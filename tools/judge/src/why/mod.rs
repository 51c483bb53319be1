//! Why an answer is what it is. The second checker tells it, which is not proved, and only where it agrees with the library
//! on all four numbers.

mod budget;
mod limits;
mod places;
mod reasons;
mod shape;
mod steps;
mod words;

use crate::refusals;
use crate::timed::{self, Stopped};
use library::Answer;
use notation::folder::Loaded;
use notation::{decoding, print, Finding};
use places::Places;
use reasons::Telling;
use second_checker::explanation::{first_limit, reason, Cut};
use second_checker::syntax::{Formula, Process};
use second_checker::verdict::{verdict, WORK_LENGTH};
use second_checker::{reading, verdict};
use std::path::Path;
use std::time::Duration;
use words::Words;

/// How long the second checker may take.
const PATIENCE: Duration = Duration::from_secs(60);

/// Where a formula fails after several steps, the three that go furthest are told; below that, one.
const CUT: Cut = Cut { steps: 3, levels: 1 };

const HEADING: &str = concat!(
    "Why? The reasons come from a second checker, which is not proved; its four numbers are those of the ",
    "proved library."
);

const LABELS: &str = "A label in < > or [ ] stands for the formula from there on.";

/// So many lines are told of a model.
const LINES: usize = 150;

/// What the second checker makes of a finding.
#[derive(Clone, Debug, PartialEq, Eq)]
pub enum Explanation {
    Told(Vec<String>),
    /// It has another answer.
    Disagrees(String),
}

/// Says why a finding in a folder got its answer within a budget.
pub fn explain(folder: &Path, loaded: &Loaded, answer: Answer, budget: u32) -> Explanation {
    let (slices, text) = (loaded.slices.clone(), loaded.text.clone());
    let mut told = match timed::run(folder, Some(PATIENCE), move || explanation(&slices, text, answer, budget)) {
        Ok(Explanation::Disagrees(message)) => return Explanation::Disagrees(message),
        Ok(Explanation::Told(lines)) => lines,
        Err(Stopped::Late(patience)) => {
            vec![
                String::new(),
                format!("Why is not told: the second checker takes more than {} s.", patience.as_secs()),
            ]
        }
        Err(stopped) => return Explanation::Disagrees(format!("the second checker gives no answer: {stopped}")),
    };
    if answer.result == 10 {
        told.extend(budget::needed(folder, &loaded.slices, budget));
    }
    Explanation::Told(told)
}

/// The second checker's answer, and its reasons.
pub fn explanation(slices: &[Vec<u8>; 3], text: Option<Finding>, answer: Answer, budget: u32) -> Explanation {
    let [first, second, formula] = slices;
    let other = verdict(first, second, formula, &mut vec![0; WORK_LENGTH], budget);
    if [other.result, other.slice, other.place, other.count] != answer.numbers() {
        let verdict::Answer { result, slice, place, count } = other;
        let message = format!(
            "THE SECOND CHECKER DISAGREES: it answers {result} {slice} {place} {count}, and the library {answer}. \
             Trust neither answer, and please report the finding."
        );
        return Explanation::Disagrees(message);
    }
    let reasons = reasons(slices, text, answer);
    if reasons.is_empty() {
        return Explanation::Told(reasons);
    }
    let labels = [LABELS].into_iter().filter(|_| reasons.iter().any(|line| line.contains(['<', '['])));
    let before = ["", HEADING].into_iter().chain(labels).map(String::from);
    let after = reasons.iter().find_map(|line| private(line)).map(|line| [String::new(), line]);
    Explanation::Told(before.chain(reasons.iter().cloned()).chain(after.into_iter().flatten()).collect())
}

/// What the mark of the first private name in a line says.
fn private(line: &str) -> Option<String> {
    let before = &line[..line.find('#')?];
    let word = &before[before.rfind(|c: char| !c.is_ascii_alphanumeric() && c != '_').map_or(0, |at| at + 1)..];
    Some(format!(
        "{word}#1 is a private name made by `new {word}`: the first such name told on the way there. In another branch the \
         same mark may be another name."
    ))
}

/// Both models, by what they are called.
const MODELS: [&str; 2] = ["the first model", "the second model"];

fn reasons(slices: &[Vec<u8>; 3], text: Option<Finding>, answer: Answer) -> Vec<String> {
    if (1..=8).contains(&answer.result) {
        return refused(slices, text, answer);
    }
    let written = text.is_some();
    let Some(finding) = text.or_else(|| printed(slices)) else { return Vec::new() };
    let trees = (reading::process(&slices[0]), reading::process(&slices[1]), reading::formula(&slices[2]));
    let (Ok(first), Ok(second), Ok(formula)) = trees else { return Vec::new() };
    let asked = Asked { finding: &finding, written, formula: &formula };
    let models = [&first, &second].into_iter().enumerate();
    match answer.result {
        0 | 12 | 13 => models.flat_map(|(which, model)| asked.truth(which, model)).collect(),
        11 => models.flat_map(|(which, model)| asked.limit(which, model)).collect(),
        _ => Vec::new(),
    }
}

/// Which rule is broken, and where.
fn refused(slices: &[Vec<u8>; 3], text: Option<Finding>, answer: Answer) -> Vec<String> {
    let (slice, rule) = (refusals::slice(answer), refusals::in_words(slices, answer));
    let place = match text.and_then(|text| refusals::place(&text, answer)) {
        Some(place) => format!("{place} of finding.txt"),
        None => format!("byte {}", answer.place),
    };
    vec![String::new(), format!("In {slice} rule {} is broken at {place}: {rule}.", answer.result)]
}

/// Files of bytes as a finding: printed, and read.
fn printed(slices: &[Vec<u8>; 3]) -> Option<Finding> {
    let (first, second) = (decoding::process(&slices[0]).ok()?, decoding::process(&slices[1]).ok()?);
    let text = print::finding(&first, &second, &decoding::formula(&slices[2]).ok()?);
    notation::read(&text).ok()
}

/// A finding of which reasons are asked for.
struct Asked<'f> {
    finding: &'f Finding,
    /// Whether it is written in words.
    written: bool,
    formula: &'f Formula,
}

impl Asked<'_> {
    /// Why the formula is true or false of a model.
    fn truth(&self, which: usize, model: &Process) -> Vec<String> {
        let Some(reason) = reason(self.formula, model, CUT) else { return Vec::new() };
        let places = Places::of_model(model, &self.finding.slices[which], self.written);
        let mut telling = Telling::new(Words::new(&self.finding.names, &places));
        telling.tell(&self.finding.trees[2], &reason);
        let title = format!("The formula is {} of {}.", reason.truth(), MODELS[which]);
        let more = telling.lines.len().saturating_sub(LINES);
        let more = (more > 0).then(|| format!("  {more} lines more are not told."));
        let lines = telling.lines.into_iter().take(LINES);
        [String::new(), title].into_iter().chain(lines).chain(more).collect()
    }

    /// Where judging meets a limit first, if it does in this model.
    fn limit(&self, which: usize, model: &Process) -> Vec<String> {
        let Some(met) = first_limit(self.formula, model) else { return Vec::new() };
        let places = Places::of_model(model, &self.finding.slices[which], self.written);
        let formula = Places::of_formula(self.formula, &self.finding.slices[2], self.written);
        let mut words = Words::new(&self.finding.names, &places);
        [vec![String::new()], limits::told(MODELS[which], &met, &mut words, &formula)].concat()
    }
}
