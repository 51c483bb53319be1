//! An earlier library, linked beside this one for one measurement: `bench/run ARCHIVE`.

use second_checker::verdict::Answer;

/// A checker of findings: three slices, work bytes, budget.
pub type Judge = fn(&[u8], &[u8], &[u8], &mut [u8], u32) -> Answer;

pub const JUDGE: Option<Judge> = given();

#[cfg(not(before))]
const fn given() -> Option<Judge> {
    None
}

#[cfg(before)]
const fn given() -> Option<Judge> {
    Some(linked::verdict)
}

#[cfg(before)]
mod linked {
    use super::Answer;

    extern "C" {
        fn gubzsenil_verdict_before(
            first: *const u8,
            first_length: usize,
            second: *const u8,
            second_length: usize,
            formula: *const u8,
            formula_length: usize,
            work: *mut u8,
            work_length: usize,
            budget: u32,
        ) -> library::Answer;
    }

    pub fn verdict(first: &[u8], second: &[u8], formula: &[u8], work: &mut [u8], budget: u32) -> Answer {
        // Safety: each pointer is that of a live slice, with its length; `work` is borrowed for this call alone.
        let answer = unsafe {
            gubzsenil_verdict_before(
                first.as_ptr(),
                first.len(),
                second.as_ptr(),
                second.len(),
                formula.as_ptr(),
                formula.len(),
                work.as_mut_ptr(),
                work.len(),
                budget,
            )
        };
        let [result, slice, place, count] = answer.numbers();
        Answer { result, slice, place, count }
    }
}
