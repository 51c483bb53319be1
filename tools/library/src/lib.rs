//! The library's exported function, called as a C program calls it.

use std::fmt;

/// The fewest work bytes that a call asks for.
pub const WORK_BYTES: usize = 65_536;

/// The four numbers of an answer.
#[repr(C)]
#[derive(Clone, Copy, Debug, PartialEq, Eq)]
pub struct Answer {
    pub result: u32,
    pub slice: u32,
    pub place: u32,
    pub count: u32,
}

extern "C" {
    fn gubzsenil_verdict(
        first: *const u8,
        first_length: usize,
        second: *const u8,
        second_length: usize,
        formula: *const u8,
        formula_length: usize,
        work: *mut u8,
        work_length: usize,
        budget: u32,
    ) -> Answer;
}

/// The library's verdict on a finding.
pub fn verdict(first: &[u8], second: &[u8], formula: &[u8], work: &mut [u8], budget: u32) -> Answer {
    // Safety: each pointer is that of a live slice, with its length; `work` is borrowed for this call alone.
    unsafe {
        gubzsenil_verdict(
            first.as_ptr(),
            first.len(),
            second.as_ptr(),
            second.len(),
            formula.as_ptr(),
            formula.len(),
            work.as_mut_ptr(),
            work.len(),
            budget,
        )
    }
}

impl Answer {
    /// The numbers in their order: result, slice, place, count.
    pub fn numbers(&self) -> [u32; 4] {
        [self.result, self.slice, self.place, self.count]
    }
}

/// As `finding` prints it: four decimal numbers, one space between.
impl fmt::Display for Answer {
    fn fmt(&self, f: &mut fmt::Formatter<'_>) -> fmt::Result {
        write!(f, "{} {} {} {}", self.result, self.slice, self.place, self.count)
    }
}
