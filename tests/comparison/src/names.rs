//! Public names in findings (document 02, 2.2): how often those at the ends of their ranges come in each role, how often an answer depends
//! on the second bytes of names, and the least share of both for a comparison to count.

use crate::generator::Finding;
use crate::roles::{self, Role};
use second_checker::reading;
use second_checker::verdict::{verdict, Answer, WORK_LENGTH};
use std::collections::BTreeSet;
use std::fmt;

/// 0 and 1, the last name of one byte, the first and the last of two, and the two at the end of the earlier range.
pub const COUNTED: [u16; 7] = [0, 1, 127, 128, 255, 256, 16_383];

/// The least share of findings that are judged and have one of these names in one of the roles, in hundredths of the findings.
pub const NAME_FLOOR: f64 = 4.0;

/// The least share of findings that are judged and whose answer depends on the second bytes of names, in hundredths of the findings.
pub const SECOND_BYTE_FLOOR: f64 = 3.0;

/// The budget with which it is asked whether it does.
const MOST_VISITS: u32 = 5000;

#[derive(Clone, Debug, Default, PartialEq, Eq)]
pub struct NameShares {
    findings: u64,
    roles: [[u64; COUNTED.len()]; Role::ALL.len()],
    second_byte: u64,
}

impl NameShares {
    /// Counts the names of a finding, if it is judged.
    pub fn add(&mut self, finding: &Finding, result: u32) {
        self.findings += 1;
        let judged = !(1..=9).contains(&result);
        let Some(names) = Names::of(finding).filter(|_| judged) else { return };
        for (counts, names) in self.roles.iter_mut().zip(&names.0) {
            for (count, name) in counts.iter_mut().zip(COUNTED) {
                *count += u64::from(names.contains(&name));
            }
        }
        if names.differ_in_second_byte_alone() && depends_on_second_bytes(finding) {
            self.second_byte += 1;
        }
    }

    fn hundredths(&self, count: u64) -> f64 {
        100.0 * count as f64 / self.findings.max(1) as f64
    }

    /// What came less often than it must.
    pub fn under_floor(&self) -> Vec<String> {
        let mut under = Vec::new();
        for (role, counts) in Role::ALL.iter().zip(&self.roles) {
            let rare = COUNTED.iter().zip(counts).filter(|(_, count)| self.hundredths(**count) < NAME_FLOOR);
            under.extend(rare.map(|(name, _)| format!("name {name} in {}", role.title())));
        }
        if self.hundredths(self.second_byte) < SECOND_BYTE_FLOOR {
            under.push("answers that depend on second bytes".to_string());
        }
        under
    }
}

impl fmt::Display for NameShares {
    fn fmt(&self, out: &mut fmt::Formatter) -> fmt::Result {
        write!(out, "judged, with name ")?;
        COUNTED.iter().try_for_each(|name| write!(out, "{name:>9}"))?;
        writeln!(out, "    floor")?;
        for (role, counts) in Role::ALL.iter().zip(&self.roles) {
            write!(out, "in {:<15}", role.title())?;
            counts.iter().try_for_each(|count| write!(out, "{:7.2} %", self.hundredths(*count)))?;
            writeln!(out, "{NAME_FLOOR:7.2} %")?;
        }
        writeln!(
            out,
            "answers that depend on the second bytes of names: {}, {:.2} %, floor {SECOND_BYTE_FLOOR:.2} %",
            self.second_byte,
            self.hundredths(self.second_byte)
        )
    }
}

/// The public names of a finding, by role.
#[derive(Default)]
struct Names([BTreeSet<u16>; Role::ALL.len()]);

impl Names {
    /// None where a slice is refused.
    fn of(finding: &Finding) -> Option<Names> {
        let mut names = Names::default();
        let mut each = |role: Role, name: &mut u16| {
            names.0[role as usize].insert(*name);
        };
        roles::of_process(&mut reading::process(&finding.first).ok()?, &mut each);
        roles::of_process(&mut reading::process(&finding.second).ok()?, &mut each);
        roles::of_formula(&mut reading::formula(&finding.formula).ok()?, &mut each);
        Some(names)
    }

    /// Whether two of them differ in their second byte alone.
    fn differ_in_second_byte_alone(&self) -> bool {
        let all: BTreeSet<u16> = self.0.iter().flatten().copied().filter(|name| *name > 127).collect();
        let first_bytes: BTreeSet<u16> = all.iter().map(|name| name % 128).collect();
        first_bytes.len() < all.len()
    }
}

/// A well-formed slice with 1 for the second byte of every number: a byte over 127 is the first of two.
pub fn with_equal_second_bytes(slice: &[u8]) -> Vec<u8> {
    let mut bytes = slice.to_vec();
    for second in 1..bytes.len() {
        if bytes[second - 1] > 127 {
            bytes[second] = 1;
        }
    }
    bytes
}

/// Whether the second checker answers otherwise where names with the same first byte are one name.
fn depends_on_second_bytes(finding: &Finding) -> bool {
    let slices = [&finding.first, &finding.second, &finding.formula];
    answer(slices.map(|slice| slice.clone())) != answer(slices.map(|slice| with_equal_second_bytes(slice)))
}

fn answer([first, second, formula]: [Vec<u8>; 3]) -> Answer {
    verdict(&first, &second, &formula, &mut vec![0; WORK_LENGTH], MOST_VISITS)
}
