//! Models of 4,096 bytes full of public names, whose numbers have one byte, two, or one and two without pattern (document 02, 2.4), or
//! are drawn from the whole range (2.2). Kinds always have one byte.

use crate::build::*;
use crate::findings::Finding;
use comparison::encoding;
use comparison::random::Random;
use second_checker::syntax::{Process, Term};

/// How many bytes the numbers of public names take. Those of the first three are at most 255; the last are drawn from the whole range.
#[derive(Clone, Copy)]
pub enum Width {
    One,
    Two,
    Mixed,
    Any,
}

impl Width {
    pub const ALL: [Width; 4] = [Width::One, Width::Two, Width::Mixed, Width::Any];

    pub fn title(self) -> &'static str {
        match self {
            Width::One => "names of one byte",
            Width::Two => "names of two bytes",
            Width::Mixed => "of one and two without pattern",
            Width::Any => "names up to 16,383",
        }
    }

    /// The next public name. Those from 128 on take two bytes.
    fn name(self, random: &mut Random) -> Term {
        let (low, high) = match self {
            Width::One => (0, 127),
            Width::Two => (128, 255),
            Width::Mixed => (0, 255),
            Width::Any => (0, 16_383),
        };
        name(random.between(low, high) as u16)
    }
}

const SEED: u64 = 24;
const LENGTH: usize = 4_096;

/// So many findings to a row that a processor cannot learn their bytes by heart.
const FINDINGS: u64 = 16;

/// Both models full of outputs, and a formula that ends early: all that can be done is to read.
pub fn read(width: Width) -> Vec<Finding> {
    let mut formula = encoding::formula(&not(yes()));
    formula.pop();
    row(&formula, |random| filled(width, &[6, 4, 2], |nodes, random| sent(width, nodes, random), random))
}

/// Both models full of lets, whose terms are worked for the start state, where the formula is judged.
pub fn judged(width: Width) -> Vec<Finding> {
    let formula = encoding::formula(&not(yes()));
    row(&formula, |random| filled(width, &[10, 4, 1], |lets, random| bound(width, lets, random), random))
}

/// How many bytes the models have.
pub fn bytes(findings: &[Finding]) -> usize {
    findings.iter().map(|finding| finding.first.len() + finding.second.len()).sum()
}

/// How many numbers they have, kinds among them: a byte over 127 is the first of two.
pub fn numbers(findings: &[Finding]) -> usize {
    let long = |model: &[u8]| model.iter().filter(|byte| **byte > 127).count();
    bytes(findings) - findings.iter().map(|finding| long(&finding.first) + long(&finding.second)).sum::<usize>()
}

fn row(formula: &[u8], model: impl Fn(&mut Random) -> Process) -> Vec<Finding> {
    let finding = |number| {
        let mut random = Random::new(SEED, number);
        let mut bytes = || encoding::process(&model(&mut random));
        let (first, second) = (bytes(), bytes());
        assert_eq!((first.len(), second.len()), (LENGTH, LENGTH), "a model is as long as it may be");
        Finding { title: String::new(), first, second, formula: formula.to_vec(), budget: 20_000 }
    };
    (0..FINDINGS).map(finding).collect()
}

/// Parts of each size in parallel while there is room, then short outputs, behind the last of which `new` takes the bytes left.
fn filled(width: Width, sizes: &[usize], part: impl Fn(usize, &mut Random) -> Process, random: &mut Random) -> Process {
    let last = encoding::process(&sent(Width::Two, 1, random)).len();
    let mut left = LENGTH - last;
    let mut parts = Vec::new();
    let mut push = |process: Process, parts: &mut Vec<Process>| {
        let bytes = encoding::process(&process).len() + 1;
        let fits = bytes <= left;
        if fits {
            left -= bytes;
            parts.push(process);
        }
        fits
    };
    for &size in sizes {
        while push(part(size, random), &mut parts) {}
    }
    while push(sent(width, 1, random), &mut parts) {}
    let (channel, message) = (width.name(random), width.name(random));
    let bare = encoding::process(&output(channel.clone(), message.clone(), nil())).len();
    parts.push(output(channel, message, (bare..left + last).fold(nil(), |then, _| new(then))));
    balanced(parts)
}

/// A term of public names with so many nodes on each path is sent.
fn sent(width: Width, nodes: usize, random: &mut Random) -> Process {
    output(width.name(random), names(width, nodes, random), nil())
}

/// A thread under so many variables, each bound to the first public name of a long term.
fn bound(width: Width, lets: usize, random: &mut Random) -> Process {
    (0..lets).fold(sent(width, 1, random), |then, _| {
        let first = width.name(random);
        bind(fst(pair(first, names(width, 6, random))), then)
    })
}

/// Pairs of public names, with so many nodes on each path.
fn names(width: Width, nodes: usize, random: &mut Random) -> Term {
    if nodes == 1 {
        return width.name(random);
    }
    let left = names(width, nodes - 1, random);
    pair(left, names(width, nodes - 1, random))
}

#[cfg(test)]
mod tests {
    use super::*;
    use second_checker::verdict::verdict;

    fn result(finding: &Finding) -> (u32, u32) {
        let mut work = vec![0; 65_536];
        let answer = verdict(&finding.first, &finding.second, &finding.formula, &mut work, finding.budget);
        (answer.result, answer.slice)
    }

    #[test]
    fn both_models_are_read_and_the_formula_is_cut_short_or_false() {
        for width in Width::ALL {
            assert!(read(width).iter().all(|finding| result(finding) == (2, 3)));
            assert!(judged(width).iter().all(|finding| result(finding) == (12, 0)));
        }
    }

    #[test]
    fn numbers_have_the_bytes_that_the_row_says() {
        for findings in [read, judged] {
            let long = |width| bytes(&findings(width)) - numbers(&findings(width));
            let names = |width| numbers(&findings(width)) / 3;
            assert_eq!(long(Width::One), 0);
            assert!([Width::Two, Width::Any].iter().all(|width| long(*width) > 9 * names(*width) / 10));
            let (mixed, half) = (long(Width::Mixed), names(Width::Mixed) / 2);
            assert!(9 * half / 10 < mixed && mixed < 11 * half / 10, "{mixed} of two bytes, half of them is {half}");
        }
    }
}
