//! A comparison over many findings.

use crate::compare::{compare, Checker, Difference};
use crate::generator::{self, Finding};
use crate::names::NameShares;
use crate::shares::Shares;

/// What a comparison over many findings saw.
#[derive(Default)]
pub struct Run {
    pub shares: Shares,
    pub names: NameShares,
    pub differences: u64,
}

impl Run {
    /// Counts a finding, by the result that is expected on it.
    pub fn add(&mut self, finding: &Finding, result: u32) {
        self.shares.add(finding, result);
        self.names.add(finding, result);
    }

    /// What came less often than it must.
    pub fn under_floor(&self) -> Vec<String> {
        let mut under: Vec<String> =
            self.shares.under_floor().iter().map(|result| format!("result {result}")).collect();
        if !self.shares.enough_long() {
            under.push("numbers of two bytes".to_string());
        }
        under.extend(self.names.under_floor());
        under
    }

    /// Whether there was no difference, and all came often enough.
    pub fn passed(&self) -> bool {
        self.differences == 0 && self.under_floor().is_empty()
    }
}

/// Compares a checker with the second checker on so many findings, with the seeds in turn. Each difference is handed
/// to `report`.
pub fn run(findings: u64, seeds: &[u64], tested: Checker, mut report: impl FnMut(&Difference)) -> Run {
    let mut run = Run::default();
    for index in 0..findings {
        let seed = seeds[(index % seeds.len() as u64) as usize];
        let number = index / seeds.len() as u64;
        let finding = generator::finding(seed, number);
        match compare(seed, number, &finding, tested) {
            Ok(answer) => run.add(&finding, answer.result),
            Err(difference) => {
                run.differences += 1;
                run.add(&finding, difference.expected.result);
                report(&difference);
            }
        }
    }
    run
}
