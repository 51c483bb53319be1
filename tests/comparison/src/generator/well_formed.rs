//! Findings whose slices are well-formed, with budgets on both sides of their count.

use super::borders::bordered;
use super::renaming::Renaming;
use super::{formulas, models, mutation, padding, Finding};
use crate::encoding;
use crate::random::Random;
use crate::roles;
use second_checker::judging::Judging;
use second_checker::reading;
use second_checker::syntax::{Formula, Process};

/// Counts are worked out up to this one; a budget over it is given only to a count under it.
const MOST_VISITS: u32 = 6000;

/// Two models and a formula.
type Trees = (Process, Process, Formula);

pub fn finding(random: &mut Random) -> Finding {
    let mut trees = match random.weighted(&[40, 12, 3, 10, 35]) {
        0 => followed(random, |random| {
            let prefixes = if random.chance(90) { random.between(2, 9) } else { random.between(10, 40) };
            models::model(random, prefixes)
        }),
        1 => followed(random, models::protocol),
        2 => followed(random, passport),
        3 => followed(random, models::nested),
        _ => at_borders(random),
    };
    if random.chance(55) {
        rename(random, &mut trees);
    }
    if random.chance(5) {
        trees = padded(random, trees);
    }
    let budget = budget(random, &trees);
    let work_length = *random.pick(&[65_536, 65_536, 65_536, 65_537, 70_000]);
    Finding {
        first: encoding::process(&trees.0),
        second: encoding::process(&trees.1),
        formula: encoding::formula(&trees.2),
        work_length,
        fill: random.below(251),
        budget,
    }
}

/// The same finding over other public names.
fn rename(random: &mut Random, (first, second, formula): &mut Trees) {
    let renaming = Renaming::new(random);
    let mut each = |_, name: &mut u16| *name = renaming.name(*name);
    roles::of_process(first, &mut each);
    roles::of_process(second, &mut each);
    roles::of_formula(formula, &mut each);
}

/// One of the models of document 003.
fn passport(random: &mut Random) -> Process {
    let files: [&[u8]; 4] = [
        include_bytes!("../../../../examples/epassport/first.bin"),
        include_bytes!("../../../../examples/epassport/second.bin"),
        include_bytes!("../../../../examples/epassport_mended/first.bin"),
        include_bytes!("../../../../examples/epassport_mended/second.bin"),
    ];
    let file: &&[u8] = random.pick(&files);
    reading::process(file).expect("the examples are well-formed")
}

/// The truth of a formula in both models, if the count is not too large.
fn truths(trees: &Trees) -> Option<(bool, bool)> {
    let mut judging = Judging::new(MOST_VISITS / 10);
    let first = judging.model(&trees.2, &trees.0).ok()?;
    let second = judging.model(&trees.2, &trees.1).ok()?;
    Some((first, second))
}

/// A model, another like it, and a formula that follows one of them. Several formulas, and second models, are tried
/// until the formula tells the models apart, or does not, as wanted.
fn followed(random: &mut Random, model: impl Fn(&mut Random) -> Process) -> Trees {
    let first = model(random);
    let mut trees = (first.clone(), first, formulas::truth());
    let told_apart = random.chance(65);
    for attempt in 0..30 {
        if attempt % 3 == 0 {
            trees.1 = other_model(random, &trees.0, &model);
        }
        let steps = if random.chance(92) { random.between(1, 6) } else { random.between(7, 16) };
        let follow_first = random.chance(60);
        trees.2 = formulas::formula(random, if follow_first { &trees.0 } else { &trees.1 }, steps);
        match truths(&trees) {
            Some((first, second)) if (first != second) == told_apart => return turned(random, trees, first),
            _ => {}
        }
    }
    trees
}

fn other_model(random: &mut Random, first: &Process, model: impl Fn(&mut Random) -> Process) -> Process {
    match random.below(8) {
        0 => first.clone(),
        1 => model(random),
        2 => {
            let once = mutation::mutated(random, first);
            mutation::mutated(random, &once)
        }
        _ => mutation::mutated(random, first),
    }
}

/// Makes a formula true of the first model, mostly: by negation, or by changing the models about.
fn turned(random: &mut Random, trees: Trees, true_of_first: bool) -> Trees {
    let (first, second, formula) = trees;
    if true_of_first || random.chance(25) {
        return (first, second, formula);
    }
    if random.chance(50) {
        return (first, second, formulas::not(formula));
    }
    (second, first, formula)
}

/// Models near a limit.
fn at_borders(random: &mut Random) -> Trees {
    let (first, mut formula) = bordered(random);
    let second = match random.below(4) {
        0 => Process::Nil,
        1 => first.clone(),
        2 => mutation::mutated(random, &first),
        _ => bordered(random).0,
    };
    if random.chance(20) {
        let steps = random.between(1, 4);
        formula = formulas::formula(random, &first, steps);
    }
    if random.chance(30) {
        formula = formulas::not(formula);
    }
    if random.chance(40) {
        return (second, first, formula);
    }
    (first, second, formula)
}

/// Slices of a length at the limit, just under and just over it, or any.
fn padded(random: &mut Random, trees: Trees) -> Trees {
    let (mut first, mut second, mut formula) = trees;
    let mut length = || match random.below(5) {
        0 => 4095,
        1 | 2 => 4096,
        3 => 4097,
        _ => random.between(200, 4000),
    };
    let lengths = [length(), length(), length()];
    let chosen = random.below(4);
    if chosen == 0 || chosen == 3 {
        first = padding::model(first, lengths[0]);
    }
    if chosen == 1 || chosen == 3 {
        second = padding::model(second, lengths[1]);
    }
    if chosen >= 2 {
        formula = padding::formula(formula, lengths[2]);
    }
    (first, second, formula)
}

/// The count of visits, or none where it is over the largest that is worked out.
fn count(trees: &Trees) -> Option<u32> {
    let mut judging = Judging::new(MOST_VISITS);
    judging.model(&trees.2, &trees.0).ok()?;
    judging.model(&trees.2, &trees.1).ok()?;
    Some(judging.count)
}

/// A budget at the count, next to it, far from it, or 0.
fn budget(random: &mut Random, trees: &Trees) -> u32 {
    let Some(count) = count(trees) else {
        return random.below(MOST_VISITS as usize) as u32;
    };
    match random.weighted(&[20, 11, 10, 2, 3, 12, 12]) {
        0 => count,
        1 => count - 1,
        2 => count + 1,
        3 => 0,
        4 => random.below(count as usize) as u32,
        5 => u32::MAX,
        _ => 1_000_000,
    }
}
