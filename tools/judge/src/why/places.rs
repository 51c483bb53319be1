//! Where the nodes of the second checker's trees stand in the finding: it tells them by their addresses.

use notation::fault::uses;
use notation::slice::{Node, Slice};
use second_checker::syntax::{Formula, Process, Term};
use std::collections::HashMap;

/// The nodes of a model or a formula.
pub struct Places<'f> {
    slice: &'f Slice,
    /// Whether the finding is written in words, so that lines and columns say something.
    written: bool,
    /// By the address of a term, the number of its node in prefix order.
    terms: HashMap<usize, usize>,
    /// By the address of a process, the number of the node that it follows.
    before: HashMap<usize, usize>,
    next: usize,
}

impl<'f> Places<'f> {
    pub fn of_model(model: &Process, slice: &'f Slice, written: bool) -> Places<'f> {
        let mut places = Places::empty(slice, written);
        places.process(model);
        places
    }

    pub fn of_formula(formula: &Formula, slice: &'f Slice, written: bool) -> Places<'f> {
        let mut places = Places::empty(slice, written);
        places.formula(formula);
        places
    }

    fn empty(slice: &'f Slice, written: bool) -> Places<'f> {
        Places { slice, written, terms: HashMap::new(), before: HashMap::new(), next: 0 }
    }

    /// Where the output, input or new stands that a process follows.
    pub fn before(&self, then: &Process) -> String {
        self.told(self.before.get(&address(then)))
    }

    /// Where the term of this address stands; none if it is not among these.
    pub fn term(&self, address: usize) -> Option<String> {
        self.terms.get(&address).map(|node| self.told(Some(node)))
    }

    /// The word that is bound in the process of this address.
    pub fn word(&self, address: usize) -> Option<&str> {
        let node = self.slice.nodes.get(*self.before.get(&address)?)?;
        node.word.as_deref()
    }

    fn told(&self, node: Option<&usize>) -> String {
        match node.and_then(|node| self.slice.nodes.get(*node)) {
            None => "an unknown place".to_string(),
            Some(node) if !self.written => format!("byte {}", node.offset),
            Some(node) => format!("{}{}", node.place, self.used(node)),
        }
    }

    /// Which use of an abbreviation is meant, where that is used more than once; of abbreviations in abbreviations as
    /// many as tell it from the others.
    fn used(&self, node: &Node) -> String {
        let alike = |other: &&Node| other.place == node.place && other.sort == node.sort && other.offset != node.offset;
        let mut others: Vec<&Node> = self.slice.nodes.iter().filter(alike).collect();
        let mut told = Vec::new();
        for (depth, used) in uses(&node.within).enumerate() {
            if others.is_empty() {
                break;
            }
            others.retain(|other| uses(&other.within).nth(depth).is_some_and(|other| other.place == used.place));
            told.push(format!("in `{}`, used at {}", used.word, used.place));
        }
        if told.is_empty() {
            String::new()
        } else {
            format!(" ({})", told.join(", "))
        }
    }

    fn process(&mut self, process: &Process) {
        let (terms, parts): (Vec<&Term>, Vec<&Process>) = match process {
            Process::Nil => (vec![], vec![]),
            Process::New(then) | Process::Repl(then) => (vec![], vec![then]),
            Process::Output { channel, message, then } => (vec![channel, message], vec![then]),
            Process::Input { channel: term, then } | Process::Let { value: term, then } => (vec![term], vec![then]),
            Process::If { left, right, then, otherwise } => (vec![left, right], vec![then, otherwise]),
            Process::Par(left, right) => (vec![], vec![left, right]),
        };
        let node = self.node();
        terms.into_iter().for_each(|term| self.term_nodes(term));
        for part in parts {
            self.before.insert(address(part), node);
            self.process(part);
        }
    }

    fn formula(&mut self, formula: &Formula) {
        let (terms, parts): (Vec<&Term>, Vec<&Formula>) = match formula {
            Formula::Equal(left, right) => (vec![left, right], vec![]),
            Formula::Not(body) | Formula::SilentStep(body) => (vec![], vec![body]),
            Formula::And(left, right) => (vec![], vec![left, right]),
            Formula::OutputStep { channel, body } => (vec![channel], vec![body]),
            Formula::InputStep { channel, message, body } => (vec![channel, message], vec![body]),
        };
        self.node();
        terms.into_iter().for_each(|term| self.term_nodes(term));
        parts.into_iter().for_each(|part| self.formula(part));
    }

    fn term_nodes(&mut self, term: &Term) {
        let node = self.node();
        self.terms.insert(address(term), node);
        match term {
            Term::Name(_) | Term::Variable(_) => {}
            Term::Fst(part) | Term::Snd(part) => self.term_nodes(part),
            Term::Pair(left, right) | Term::Enc(left, right) | Term::Dec(left, right) | Term::Mac(left, right) => {
                self.term_nodes(left);
                self.term_nodes(right);
            }
        }
    }

    /// The number of the next node.
    fn node(&mut self) -> usize {
        self.next += 1;
        self.next - 1
    }
}

fn address<T>(tree: &T) -> usize {
    std::ptr::from_ref(tree) as usize
}
