//! Runs two checkers on copies of one finding, and says how they differ.

use crate::generator::Finding;
use notation::decoding::{self, Refusal};
use notation::print;
use second_checker::verdict::Answer;
use std::fmt;

/// A checker of findings: three slices, work bytes, budget.
pub type Checker = fn(&[u8], &[u8], &[u8], &mut [u8], u32) -> Answer;

/// An answer, with the work bytes as the call left them.
#[derive(Clone, Debug, PartialEq, Eq)]
pub struct Outcome {
    pub answer: Answer,
    pub work: Vec<u8>,
}

pub fn outcome(finding: &Finding, checker: Checker) -> Outcome {
    let mut work = finding.work();
    let answer = checker(&finding.first, &finding.second, &finding.formula, &mut work, finding.budget);
    Outcome { answer, work }
}

/// A finding on which the checker under test differs from the second checker.
#[derive(Clone, Debug)]
pub struct Difference {
    pub seed: u64,
    pub number: u64,
    pub finding: Finding,
    pub tested: Answer,
    pub expected: Answer,
    /// The first work byte that differs: its place, the tested byte and the expected one.
    pub work_byte: Option<(usize, u8, u8)>,
}

/// The second checker's answer, or how the checker under test differs from it.
pub fn compare(seed: u64, number: u64, finding: &Finding, tested: Checker) -> Result<Answer, Box<Difference>> {
    let expected = outcome(finding, second_checker::verdict::verdict);
    let tested = outcome(finding, tested);
    if tested == expected {
        return Ok(expected.answer);
    }
    let pairs = tested.work.iter().zip(&expected.work).enumerate();
    let work_byte = pairs.map(|(place, (t, e))| (place, *t, *e)).find(|(_, t, e)| t != e);
    Err(Box::new(Difference {
        seed,
        number,
        finding: finding.clone(),
        tested: tested.answer,
        expected: expected.answer,
        work_byte,
    }))
}

impl fmt::Display for Difference {
    fn fmt(&self, out: &mut fmt::Formatter) -> fmt::Result {
        writeln!(out, "a difference: seed {}, finding {}", self.seed, self.number)?;
        writeln!(out, "tested    {}", four(&self.tested))?;
        writeln!(out, "expected  {}", four(&self.expected))?;
        match self.work_byte {
            Some((place, tested, expected)) => {
                writeln!(out, "work byte {place} is {tested:#04x}, expected {expected:#04x}")?
            }
            None => writeln!(out, "work bytes are equal")?,
        }
        writeln!(out, "{}", readable(&self.finding))?;
        write!(out, "{}", as_test(&self.finding, &self.expected))
    }
}

fn four(answer: &Answer) -> String {
    format!("{} {} {} {}", answer.result, answer.slice, answer.place, answer.count)
}

/// The finding in notation, or which slices cannot be read.
pub fn readable(finding: &Finding) -> String {
    let first = decoding::process(&finding.first);
    let second = decoding::process(&finding.second);
    let formula = decoding::formula(&finding.formula);
    if let (Ok(first), Ok(second), Ok(formula)) = (&first, &second, &formula) {
        return print::finding(first, second, formula);
    }
    let lines = [
        slice("first", first.as_ref().map(print::process)),
        slice("second", second.as_ref().map(print::process)),
        slice("formula", formula.as_ref().map(print::formula)),
    ];
    lines.join("\n")
}

fn slice(name: &str, tree: Result<String, &Refusal>) -> String {
    match tree {
        Ok(text) => format!("{name} {text}"),
        Err(refusal) => format!("{name}: {refusal}"),
    }
}

/// The finding as a test that can be pasted.
fn as_test(finding: &Finding, expected: &Answer) -> String {
    let bytes = |slice: &[u8]| {
        let digits: Vec<String> = slice.iter().map(|byte| format!("0x{byte:02x}")).collect();
        format!("vec![{}]", digits.join(", "))
    };
    format!(
        "let finding = Finding {{\n    first: {},\n    second: {},\n    formula: {},\n    work_length: {},\n    \
         fill: {},\n    budget: {},\n}};\nlet expected = {expected:?};\n\
         assert_eq!(outcome(&finding, library::verdict).answer, expected);\n",
        bytes(&finding.first),
        bytes(&finding.second),
        bytes(&finding.formula),
        finding.work_length,
        finding.fill,
        finding.budget,
    )
}
