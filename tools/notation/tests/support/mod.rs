//! What several tests use: pieces of findings read alone, the examples, the blocks of the document, and random trees.
#![allow(dead_code)]

pub mod ebnf;

use notation::decoding;
use notation::fault::Fault;
use notation::syntax::{Formula, Process, Term, LARGEST_NAME};
use notation::Finding;
use std::fs;
use std::path::{Path, PathBuf};

pub fn finding(text: &str) -> Finding {
    notation::read(text).unwrap_or_else(|faults| panic!("{}, in\n{text}", told(&faults).join("\n")))
}

/// The first fault of a text.
pub fn fault(text: &str) -> Fault {
    notation::read(text).err().and_then(|faults| faults.into_iter().next()).unwrap_or_else(|| panic!("good:\n{text}"))
}

pub fn told(faults: &[Fault]) -> Vec<String> {
    faults.iter().map(Fault::to_string).collect()
}

pub fn bytes(finding: &Finding) -> [Vec<u8>; 3] {
    finding.slices.clone().map(|slice| slice.bytes)
}

/// The trees that the bytes of a finding are.
pub fn trees(finding: &Finding) -> (Process, Process, Formula) {
    let [first, second, formula] = bytes(finding);
    let model = |bytes: &[u8]| decoding::process(bytes).unwrap_or_else(|refusal| panic!("{refusal}"));
    (model(&first), model(&second), decoding::formula(&formula).unwrap_or_else(|refusal| panic!("{refusal}")))
}

pub fn process(text: &str) -> Process {
    trees(&finding(&format!("first\n{text}\nsecond nil formula true"))).0
}

pub fn formula(text: &str) -> Formula {
    trees(&finding(&format!("first nil second nil formula\n{text}"))).2
}

/// What has this path in the repository.
fn at(path: &str) -> PathBuf {
    Path::new(env!("CARGO_MANIFEST_DIR")).join("../..").join(path)
}

pub fn examples() -> PathBuf {
    at("examples")
}

/// The folders under `examples`.
pub fn folders() -> Vec<PathBuf> {
    let entries = fs::read_dir(examples()).expect("the folder of examples");
    let paths = entries.map(|entry| entry.expect("an example").path());
    let mut folders: Vec<PathBuf> = paths.filter(|path| path.is_dir()).collect();
    folders.sort();
    assert!(folders.len() > 5, "{folders:?}");
    folders
}

pub fn document() -> String {
    fs::read_to_string(at("docs/NOTATION.md")).expect("the document of the notation")
}

/// The fenced blocks of the document: what each is marked as, and its text.
pub fn blocks() -> Vec<(String, String)> {
    let text = document();
    let inside = text.split("```").skip(1).step_by(2);
    inside.filter_map(|block| block.split_once('\n')).map(|(mark, text)| (mark.into(), text.into())).collect()
}

pub fn blocks_of(mark: &str) -> Vec<String> {
    let found: Vec<String> = blocks().into_iter().filter(|block| block.0 == mark).map(|block| block.1).collect();
    assert!(!found.is_empty(), "no block is marked {mark}");
    found
}

pub fn hexadecimal(bytes: &[u8]) -> String {
    bytes.iter().map(|byte| format!("{byte:02x}")).collect::<Vec<_>>().join(" ")
}

/// A linear congruential generator, and trees drawn with it: at most `depth` nodes on a path, `bound` variables or
/// aliases in scope.
pub struct Random(pub u32);

impl Random {
    pub fn below(&mut self, limit: usize) -> usize {
        self.0 = self.0.wrapping_mul(1_664_525).wrapping_add(1_013_904_223);
        (self.0 >> 8) as usize % limit
    }

    pub fn term(&mut self, bound: usize, depth: usize) -> Term {
        let kind = self.below(if depth > 1 { 8 } else { 2 });
        let mut part = || Box::new(self.term(bound, depth.saturating_sub(1)));
        match kind {
            2 => Term::Pair(part(), part()),
            3 => Term::Fst(part()),
            4 => Term::Snd(part()),
            5 => Term::Enc(part(), part()),
            6 => Term::Dec(part(), part()),
            7 => Term::Mac(part(), part()),
            1 if bound > 0 => Term::Variable(self.below(bound)),
            _ => Term::Name(self.below(1 + usize::from(LARGEST_NAME)) as u16),
        }
    }

    pub fn process(&mut self, bound: usize, depth: usize) -> Process {
        let (channel, message) = (self.term(bound, 2), self.term(bound, 4));
        let kind = if depth > 1 { self.below(8) } else { 0 };
        let mut part = |bound| Box::new(self.process(bound, depth - 1));
        match kind {
            1 => Process::New(part(bound + 1)),
            2 => Process::Output { channel, message, then: part(bound) },
            3 => Process::Input { channel, then: part(bound + 1) },
            4 => Process::If { left: channel, right: message, then: part(bound), otherwise: part(bound) },
            5 => Process::Let { value: message, then: part(bound + 1) },
            6 => Process::Par(part(bound), part(bound)),
            7 => Process::Repl(part(bound)),
            _ => Process::Nil,
        }
    }

    pub fn formula(&mut self, bound: usize, depth: usize) -> Formula {
        let (channel, message) = (self.term(bound, 2), self.term(bound, 4));
        let kind = if depth > 1 { self.below(8) } else { 0 };
        let mut part = |bound| Box::new(self.formula(bound, depth - 1));
        match kind {
            1 | 2 => Formula::Not(part(bound)),
            3 | 4 => Formula::And(part(bound), part(bound)),
            5 => Formula::OutputStep { channel, body: part(bound + 1) },
            6 => Formula::InputStep { channel, message, body: part(bound) },
            7 => Formula::SilentStep(part(bound)),
            _ => Formula::Equal(channel, message),
        }
    }
}
