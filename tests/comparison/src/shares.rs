//! How often each result comes, and numbers of two bytes, and the least share each must have for a comparison to count.

use crate::generator::Finding;
use std::fmt;

/// The least share of each result, 0 to 13, in hundredths of the findings. No bytes meet 5 (document 02, 2.2).
pub const FLOORS: [f64; 14] = [8.0, 1.5, 1.5, 1.5, 1.5, 0.0, 1.5, 1.5, 1.5, 1.5, 5.0, 5.0, 8.0, 8.0];

/// The least share of findings that are judged and have a number of two bytes, in hundredths of the findings.
pub const LONG_FLOOR: f64 = 20.0;

#[derive(Clone, Debug, Default, PartialEq, Eq)]
pub struct Shares {
    results: [u64; 14],
    long: u64,
}

impl Shares {
    /// Counts the answer on a finding, by its result.
    pub fn add(&mut self, finding: &Finding, result: u32) {
        self.results[result as usize] += 1;
        let judged = !(1..=9).contains(&result);
        if judged && finding.has_long_number() {
            self.long += 1;
        }
    }

    pub fn findings(&self) -> u64 {
        self.results.iter().sum()
    }

    /// In hundredths.
    pub fn share(&self, result: usize) -> f64 {
        self.hundredths(self.results[result])
    }

    pub fn long_share(&self) -> f64 {
        self.hundredths(self.long)
    }

    fn hundredths(&self, count: u64) -> f64 {
        100.0 * count as f64 / self.findings().max(1) as f64
    }

    /// The results that came less often than they must.
    pub fn under_floor(&self) -> Vec<usize> {
        (0..14).filter(|result| self.share(*result) < FLOORS[*result]).collect()
    }

    pub fn enough_long(&self) -> bool {
        self.long_share() >= LONG_FLOOR
    }
}

impl fmt::Display for Shares {
    fn fmt(&self, out: &mut fmt::Formatter) -> fmt::Result {
        writeln!(out, "result  findings  share    floor")?;
        for (result, number) in self.results.iter().enumerate() {
            writeln!(out, "{result:6}  {number:8}  {:5.2} %  {:5.2} %", self.share(result), FLOORS[result])?;
        }
        writeln!(
            out,
            "judged, with a number of two bytes: {}, {:.2} %, floor {LONG_FLOOR:.2} %",
            self.long,
            self.long_share()
        )
    }
}
