//! Random findings: well-formed ones with all results, states near each limit, and damaged slices.

mod borders;
mod damage;
mod forms;
mod formulas;
mod knowledge;
mod models;
mod mutation;
mod padding;
mod renaming;
mod terms;
mod well_formed;

use crate::random::Random;
use second_checker::verdict::WORK_LENGTH;

/// The largest budget of a finding whose slices are changed.
const CHANGED_BUDGET: u32 = 5000;

/// The inputs of one call of the verdict.
#[derive(Clone, Debug, PartialEq, Eq)]
pub struct Finding {
    pub first: Vec<u8>,
    pub second: Vec<u8>,
    pub formula: Vec<u8>,
    pub work_length: usize,
    /// Where the pattern of the work bytes starts.
    pub fill: usize,
    pub budget: u32,
}

impl Finding {
    /// The work bytes before the call: none is 0, and neighbours differ.
    pub fn work(&self) -> Vec<u8> {
        let pattern: Vec<u8> = (0..251).map(|place| 1 + ((place + self.fill) % 251) as u8).collect();
        let mut work = pattern.repeat(self.work_length / 251 + 1);
        work.truncate(self.work_length);
        work
    }

    /// Whether a number of two bytes stands in a slice, all of them being well-formed: no other byte is over 127.
    pub fn has_long_number(&self) -> bool {
        [&self.first, &self.second, &self.formula].into_iter().any(|slice| slice.iter().any(|byte| *byte > 127))
    }
}

/// The finding with a number, of a seed.
pub fn finding(seed: u64, number: u64) -> Finding {
    let random = &mut Random::new(seed, number);
    match random.weighted(&[62, 33, 5]) {
        0 => well_formed::finding(random),
        1 => damaged(random),
        _ => scattered(random),
    }
}

/// A finding with one slice damaged, or the work buffer too short; now and then with two faults.
fn damaged(random: &mut Random) -> Finding {
    let mut finding = well_formed::finding(random);
    let faults = if random.chance(20) { 2 } else { 1 };
    for _ in 0..faults {
        match *random.pick(&[1, 2, 3, 4, 6, 7, 8, 9]) {
            9 => finding.work_length = *random.pick(&[0, 1, 1000, WORK_LENGTH - 1, WORK_LENGTH - 1]),
            rule => change_slices(&mut finding, |slices| damage::damage(random, slices, rule)),
        }
    }
    finding
}

/// A finding with a few bytes changed anywhere.
fn scattered(random: &mut Random) -> Finding {
    let mut finding = well_formed::finding(random);
    let index = random.below(3);
    change_slices(&mut finding, |slices| damage::scatter(random, &mut slices[index]));
    finding
}

/// What is changed may be good still, and count far more than it did: its budget is kept small.
fn change_slices(finding: &mut Finding, change: impl FnOnce(&mut [Vec<u8>; 3])) {
    finding.budget = finding.budget.min(CHANGED_BUDGET);
    let mut slices = [&mut finding.first, &mut finding.second, &mut finding.formula].map(std::mem::take);
    change(&mut slices);
    [finding.first, finding.second, finding.formula] = slices;
}
