//! Findings for the tests: from texts, and from bytes.
#![allow(dead_code)]

use library::{verdict, Answer, WORK_BYTES};
use notation::decoding;
use notation::folder::Loaded;
use notation::print;

pub const BUDGET: u32 = 1_000_000;

/// A finding that is written in words; its bytes may break a rule.
pub fn written(text: &str) -> Loaded {
    let reading = notation::reading(text);
    let finding = reading.finding.unwrap_or_else(|| panic!("{:?}, in\n{text}", reading.faults));
    let slices = finding.slices.clone().map(|slice| slice.bytes);
    Loaded { slices, text: Some(finding), notes: Vec::new(), faults: Vec::new(), warnings: Vec::new() }
}

/// The same finding as bytes alone.
pub fn bytes(text: &str) -> Loaded {
    Loaded { text: None, ..written(text) }
}

pub fn of_slices(slices: [Vec<u8>; 3]) -> Loaded {
    Loaded { slices, text: None, notes: Vec::new(), faults: Vec::new(), warnings: Vec::new() }
}

/// A term that is nested too deep: nine nodes on a path.
pub fn nine_nodes() -> String {
    (0..8).fold("1".to_string(), |term, _| format!("fst({term})"))
}

/// The library's answer.
pub fn judged(loaded: &Loaded, budget: u32) -> Answer {
    let [first, second, formula] = &loaded.slices;
    verdict(first, second, formula, &mut vec![7; WORK_BYTES], budget)
}

/// The finding in the notation, for messages.
pub fn readable(slices: &[Vec<u8>; 3]) -> String {
    match (decoding::process(&slices[0]), decoding::process(&slices[1]), decoding::formula(&slices[2])) {
        (Ok(first), Ok(second), Ok(formula)) => print::finding(&first, &second, &formula),
        _ => format!("{slices:02x?}"),
    }
}
