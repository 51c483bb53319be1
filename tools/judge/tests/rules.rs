//! Texts around the limits of the reader: a rule is told of the text exactly where the library refuses its bytes, the same
//! rule, and at the place that the answer leads to.

mod support;

use judge::refusals::place;
use notation::fault::{Cause, Fault};
use support::{judged, written};

/// A linear congruential generator, and texts drawn with it.
struct Random(u32);

impl Random {
    fn below(&mut self, limit: usize) -> usize {
        self.0 = self.0.wrapping_mul(1_664_525).wrapping_add(1_013_904_223);
        (self.0 >> 8) as usize % limit
    }

    fn name(&mut self) -> String {
        [0, 1, 127, 128, 255, 256, 16_382, 16_383][self.below(8)].to_string()
    }

    /// A term of about eight nodes on a path.
    fn term(&mut self) -> String {
        let depth = if self.below(6) == 0 { 6 + self.below(4) } else { self.below(3) };
        (0..depth).fold(self.name(), |term, _| match self.below(3) {
            0 => format!("fst({term})"),
            1 => format!("pair({term}, {})", self.name()),
            _ => format!("enc({}, {term})", self.name()),
        })
    }

    /// A process with many nodes and binders on a path, or with many bytes.
    fn process(&mut self) -> String {
        let wide = self.below(12) == 0;
        let depth = match self.below(3) {
            _ if wide => 1 + self.below(3),
            0 => 60 + self.below(6),
            _ => self.below(20),
        };
        let binders = 1 + self.below(15);
        let mut process = "nil".to_string();
        for node in 0..depth {
            process = match self.below(if node < binders { 6 } else { 3 }) {
                0 => format!("repl {process}"),
                1 => format!("out({}, {}). {process}", self.term(), self.term()),
                2 => format!("(out({}, 1) | {process})", self.term()),
                3 => format!("new _. {process}"),
                4 => format!("in({}, _). {process}", self.term()),
                _ => format!("let _ = {} in {process}", self.term()),
            };
        }
        let doublings = if wide { 8 + self.below(3) } else { 0 };
        (0..doublings).fold(process, |half, _| format!("({half} |\n {half})"))
    }

    fn formula(&mut self) -> String {
        let (depth, steps) = (if self.below(2) == 0 { 44 + self.below(6) } else { self.below(20) }, 12 + self.below(8));
        let mut formula = format!("{} = {}", self.term(), self.term());
        for node in 0..depth {
            formula = match self.below(if node < steps { 5 } else { 2 }) {
                0 => format!("not ({formula})"),
                1 => format!("(true and {formula})"),
                2 => format!("<tau> {formula}"),
                3 => format!("<out {} _> {formula}", self.term()),
                _ => format!("[in {} {}] {formula}", self.term(), self.term()),
            };
        }
        formula
    }
}

#[test]
fn the_text_and_the_library_refuse_alike() {
    let mut random = Random(9);
    let mut seen = [0; 11];
    for _ in 0..3000 {
        let text = format!("first {}\nsecond {}\nformula {}", random.process(), random.process(), random.formula());
        let reading = notation::reading(&text);
        if reading.finding.is_none() {
            continue; // Nested more than 200 deep, or with too many nodes: there are no bytes to judge.
        }
        let loaded = written(&text);
        let answer = judged(&loaded, 0);
        seen[answer.result as usize] += 1;
        assert_eq!(answer.result == 10, reading.faults.is_empty(), "{answer}: {:?}\n{text}", reading.faults);
        let Some(place) = loaded.text.as_ref().filter(|_| answer.result < 10).and_then(|text| place(text, answer))
        else {
            continue;
        };
        let tells = |fault: &Fault| fault.cause == Cause::Rule(answer.result) && fault.place.to_string() == place;
        assert!(reading.faults.iter().any(tells), "{answer} at {place}: {:?}\n{text}", reading.faults);
    }
    assert!([1, 7, 10].iter().all(|result| seen[*result] > 50), "{seen:?}");
}
