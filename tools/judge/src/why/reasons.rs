//! Why a formula is true or false of a model, line by line, in the words of the finding.

use super::shape::{self, shape, under, Shape};
use super::steps;
use super::words::Words;
use notation::tree::{Kind, Tree};
use second_checker::explanation::{Reason, Step, Tried};
use second_checker::messages::Message;

/// A message longer than this is told once.
const LONG: usize = 40;

/// The lines that tell a reason.
pub struct Telling<'f> {
    pub words: Words<'f>,
    aliases: Vec<String>,
    pub lines: Vec<String>,
    indent: usize,
}

fn verb(truth: bool) -> &'static str {
    if truth {
        "holds"
    } else {
        "fails"
    }
}

impl<'f> Telling<'f> {
    pub fn new(words: Words<'f>) -> Telling<'f> {
        Telling { words, aliases: Vec::new(), lines: Vec::new(), indent: 1 }
    }

    fn line(&mut self, text: &str) {
        self.lines.push(format!("{}{text}", "  ".repeat(self.indent)));
    }

    /// Tells something further in; what comes on its path is forgotten after it.
    fn inside(&mut self, tell: impl FnOnce(&mut Self)) {
        let path = self.words.path();
        self.indent += 1;
        tell(self);
        self.indent -= 1;
        self.words.leave(path);
    }

    pub fn tell(&mut self, formula: &Tree, reason: &Reason) {
        match shape(formula, reason) {
            Shape::Equation { formula, differ, reason } => self.equation(formula, differ, reason),
            Shape::Modal { step, boxed, reason } => self.modal(step, boxed, reason),
            Shape::Sides { sides, or, reason } => self.sides(sides, or, reason),
            Shape::Negation { body, reason } => {
                self.line(&format!(
                    "`not` {}, because what it denies {}:",
                    verb(!reason.truth()),
                    verb(reason.truth())
                ));
                self.inside(|telling| telling.tell(body, reason));
            }
        }
    }

    fn equation(&mut self, formula: &Tree, differ: bool, reason: &Reason) {
        let Reason::Equal { left, right } = reason else { return };
        if shape::is_true(formula) {
            return self.line("true holds");
        }
        let [left_text, right_text] = [0, 1].map(|side| self.words.recipe(&formula.parts[side], &self.aliases));
        let sign = if differ { "!=" } else { "=" };
        let holds = (left == right) != differ;
        if left_text == right_text {
            return self.line(&format!("{left_text} {sign} {right_text} {}", verb(holds)));
        }
        let told = match left == right {
            true => vec![format!("both are {}", self.words.message(left))],
            false => {
                let sides = [(&formula.parts[0], &left_text, left), (&formula.parts[1], &right_text, right)];
                sides.into_iter().filter_map(|(recipe, text, message)| self.recipe_is(recipe, text, message)).collect()
            }
        };
        let told = if told.is_empty() { String::new() } else { format!(": {}", told.join(", ")) };
        self.line(&format!("{left_text} {sign} {right_text} {}{told}", verb(holds)));
    }

    /// What a recipe gives, unless it says so itself. Of an alias that was told when it was sent not much is said again.
    fn recipe_is(&mut self, recipe: &Tree, text: &str, message: &Message) -> Option<String> {
        let told = self.words.message(message);
        match recipe.kind {
            _ if text == told => None,
            Kind::Variable if told.len() > LONG => Some(format!("{text} is as told above")),
            _ => Some(format!("{text} is {told}")),
        }
    }

    fn sides(&mut self, sides: [&Tree; 2], or: bool, reason: &Reason) {
        let word = if or { "or" } else { "and" };
        let all = 1 + shape::sides(sides[1], or);
        let told = shape::told(sides, or, reason, 1);
        if let (Reason::Side { .. }, [(number, (tree, reason))]) = (reason, &told[..]) {
            let which = match (all, number) {
                (2, 1) => "the left side".to_string(),
                (2, _) => "the right side".to_string(),
                _ => format!("side {number} of {all}"),
            };
            self.line(&format!("{which} of `{word}` {}", verb(or)));
            return self.tell(tree, reason);
        }
        self.line(&format!("each of the {all} sides of `{word}` {}:", verb(!or)));
        for (_, (tree, reason)) in told {
            let first = self.lines.len();
            self.inside(|telling| telling.inside(|telling| telling.tell(tree, reason)));
            self.mark(first);
        }
    }

    /// Puts a dash before a line that is told two further in.
    fn mark(&mut self, line: usize) {
        let indent = "  ".repeat(self.indent + 1);
        if let Some(line) = self.lines.get_mut(line) {
            *line = format!("{indent}- {}", line.trim_start());
        }
    }

    fn modal(&mut self, step: &Tree, boxed: bool, reason: &Reason) {
        let (label, verb) = (self.label(step, boxed), verb(reason.truth() != boxed));
        match reason {
            Reason::Step { step: taken, number, of, reason } => {
                let (by, which, place) =
                    (if boxed { "after" } else { "by" }, which(*number, *of), self.told(step, taken));
                self.line(&format!("{label} {verb} {by} {which}{place}"));
                self.body(step, boxed, reason);
            }
            Reason::NoStep { tried, of } => match &tried[..] {
                [] => self.line(&format!("{label} {verb}: there is no such step")),
                [one] => {
                    let place = self.told(step, &one.step);
                    let after = match of {
                        1 => "its only step, ".to_string(),
                        _ => format!("each of its {of} steps; told is step {}, ", one.number),
                    };
                    self.line(&format!("{label} {verb} after {after}{place}"));
                    self.body(step, boxed, &one.reason);
                }
                _ => {
                    self.line(&format!("{label} {verb} after each of its {of} steps:"));
                    self.inside(|telling| telling.each(step, boxed, tried, *of, verb));
                }
            },
            _ => {}
        }
    }

    /// The steps after all of which a step formula fails, or a box holds.
    fn each(&mut self, step: &Tree, boxed: bool, tried: &[Tried], of: usize, verb: &str) {
        for Tried { number, step: taken, reason } in tried {
            let path = self.words.path();
            let place = self.told(step, taken);
            self.line(&format!("{number}. {place}"));
            self.inside(|telling| telling.body(step, boxed, reason));
            self.words.leave(path);
        }
        if of > tried.len() {
            self.line(&format!("it also {verb} after {} more, not told", of - tried.len()));
        }
    }

    fn body(&mut self, step: &Tree, boxed: bool, reason: &Reason) {
        let Some(body) = step.parts.last() else { return };
        let body = if boxed { &body.parts[0] } else { body };
        let alias = step.word.clone();
        self.aliases.extend(alias.iter().cloned());
        self.tell(body, under(boxed, reason));
        self.aliases.truncate(self.aliases.len() - alias.iter().count());
    }

    /// A step, for its label. What an input takes is not told again where the label has it as a word.
    fn told(&mut self, step: &Tree, taken: &Step) -> String {
        let in_label = step.kind == Kind::InputStep && step.parts[1].number.is_some();
        steps::told(taken, step.word.as_deref(), !in_label, &mut self.words)
    }

    fn label(&self, step: &Tree, boxed: bool) -> String {
        let recipe = |part: usize| self.words.recipe(&step.parts[part], &self.aliases);
        let inside = match step.kind {
            Kind::OutputStep => format!("out {} {}", recipe(0), step.word.as_deref().unwrap_or("_")),
            Kind::InputStep => format!("in {} {}", recipe(0), recipe(1)),
            _ => "tau".to_string(),
        };
        if boxed {
            format!("[{inside}]")
        } else {
            format!("<{inside}>")
        }
    }
}

/// Which step it is, where there are several.
fn which(number: usize, of: usize) -> String {
    if of > 1 {
        format!("step {number} of {of}, ")
    } else {
        String::new()
    }
}
