//! The second checker's trees as bytes (document 01, "Bytes"). What is refused is written as well.

use second_checker::syntax::{Formula, Process, Term};

pub fn process(process: &Process) -> Vec<u8> {
    let mut bytes = Bytes::default();
    bytes.process(process);
    bytes.0
}

pub fn formula(formula: &Formula) -> Vec<u8> {
    let mut bytes = Bytes::default();
    bytes.formula(formula);
    bytes.0
}

#[derive(Default)]
struct Bytes(Vec<u8>);

impl Bytes {
    /// A number up to 16,383.
    fn number(&mut self, number: usize) -> &mut Bytes {
        if number < 128 {
            self.0.push(number as u8);
        } else {
            self.0.extend([128 + (number % 128) as u8, (number / 128) as u8]);
        }
        self
    }

    fn term(&mut self, term: &Term) -> &mut Bytes {
        match term {
            Term::Name(name) => self.number(0).number(usize::from(*name)),
            Term::Variable(index) => self.number(1).number(*index),
            Term::Pair(left, right) => self.number(2).term(left).term(right),
            Term::Fst(pair) => self.number(3).term(pair),
            Term::Snd(pair) => self.number(4).term(pair),
            Term::Enc(message, key) => self.number(5).term(message).term(key),
            Term::Dec(message, key) => self.number(6).term(message).term(key),
            Term::Mac(message, key) => self.number(7).term(message).term(key),
        }
    }

    fn process(&mut self, process: &Process) -> &mut Bytes {
        match process {
            Process::Nil => self.number(0),
            Process::New(then) => self.number(1).process(then),
            Process::Output { channel, message, then } => self.number(2).term(channel).term(message).process(then),
            Process::Input { channel, then } => self.number(3).term(channel).process(then),
            Process::If { left, right, then, otherwise } => {
                self.number(4).term(left).term(right).process(then).process(otherwise)
            }
            Process::Let { value, then } => self.number(5).term(value).process(then),
            Process::Par(left, right) => self.number(6).process(left).process(right),
            Process::Repl(body) => self.number(7).process(body),
        }
    }

    fn formula(&mut self, formula: &Formula) -> &mut Bytes {
        match formula {
            Formula::Equal(left, right) => self.number(0).term(left).term(right),
            Formula::Not(body) => self.number(1).formula(body),
            Formula::And(left, right) => self.number(2).formula(left).formula(right),
            Formula::OutputStep { channel, body } => self.number(3).term(channel).formula(body),
            Formula::InputStep { channel, message, body } => self.number(4).term(channel).term(message).formula(body),
            Formula::SilentStep(body) => self.number(5).formula(body),
        }
    }
}
