//! Trees in the notation: variables are v0, v1 and so on, aliases a0, a1 and so on, public names numbers. What is bound and
//! not used is `_`.

mod formulas;
mod processes;
mod terms;

pub use formulas::formula;
pub use processes::process;
pub use terms::term;

use crate::syntax::{Formula, Process};

/// What fits in a line of this width is not broken.
const WIDTH: usize = 110;

/// Where something is broken, a line that has come this far ends with the prefix.
const FAR: usize = 60;

/// Where the text stands: the column that has been reached, and the one that a new line starts at.
#[derive(Clone, Copy)]
struct Margin {
    column: usize,
    indent: usize,
}

impl Margin {
    fn new(indent: usize) -> Margin {
        Margin { column: indent, indent }
    }

    fn deeper(self) -> Margin {
        Margin::new(self.indent + 2)
    }

    fn fits(self, text: &str) -> bool {
        self.column + text.len() <= WIDTH
    }

    /// A line break, and the blanks that the next line starts with.
    fn newline(self) -> String {
        format!("\n{}", " ".repeat(self.indent))
    }

    /// What stands between a prefix and what follows it, and where that follows.
    fn after(self, prefix: &str) -> (String, Margin) {
        let column = self.column + prefix.len() + 1;
        if column > FAR {
            (self.newline(), Margin::new(self.indent))
        } else {
            (" ".to_string(), Margin { column, ..self })
        }
    }
}

/// A finding that reads as these trees.
pub fn finding(first: &Process, second: &Process, formula: &Formula) -> String {
    let models = [("first", processes::indented(first, 2)), ("second", processes::indented(second, 2))];
    let formula = ("formula", formulas::indented(formula, 2));
    let sections = models.into_iter().chain([formula]);
    sections.map(|(word, text)| format!("{word}\n  {text}\n")).collect::<Vec<_>>().join("\n")
}
