//! Terms, processes and formulas as trees, a kind of document 01's "Bytes" for each variant, in its order.

/// The largest public name, and the largest number that two bytes hold.
pub const LARGEST_NAME: u16 = 16_383;

/// A term of a model or a recipe of a formula. `Variable` is a variable in the one and an alias in the other, by its
/// number.
#[derive(Clone, Debug, PartialEq, Eq)]
pub enum Term {
    Name(u16),
    Variable(usize),
    Pair(Box<Term>, Box<Term>),
    Fst(Box<Term>),
    Snd(Box<Term>),
    Enc(Box<Term>, Box<Term>),
    Dec(Box<Term>, Box<Term>),
    Mac(Box<Term>, Box<Term>),
}

#[derive(Clone, Debug, PartialEq, Eq)]
pub enum Process {
    Nil,
    New(Box<Process>),
    Output { channel: Term, message: Term, then: Box<Process> },
    Input { channel: Term, then: Box<Process> },
    If { left: Term, right: Term, then: Box<Process>, otherwise: Box<Process> },
    Let { value: Term, then: Box<Process> },
    Par(Box<Process>, Box<Process>),
    Repl(Box<Process>),
}

#[derive(Clone, Debug, PartialEq, Eq)]
pub enum Formula {
    Equal(Term, Term),
    Not(Box<Formula>),
    And(Box<Formula>, Box<Formula>),
    OutputStep { channel: Term, body: Box<Formula> },
    InputStep { channel: Term, message: Term, body: Box<Formula> },
    SilentStep(Box<Formula>),
}

impl Term {
    /// Whether the variable or alias of this number occurs.
    pub fn has(&self, index: usize) -> bool {
        match self {
            Term::Name(_) => false,
            Term::Variable(found) => *found == index,
            Term::Fst(part) | Term::Snd(part) => part.has(index),
            Term::Pair(left, right) | Term::Enc(left, right) | Term::Dec(left, right) | Term::Mac(left, right) => {
                left.has(index) || right.has(index)
            }
        }
    }
}

impl Process {
    /// Whether the variable of this number occurs.
    pub fn has_variable(&self, index: usize) -> bool {
        match self {
            Process::Nil => false,
            Process::New(then) | Process::Repl(then) => then.has_variable(index),
            Process::Output { channel, message, then } => {
                channel.has(index) || message.has(index) || then.has_variable(index)
            }
            Process::Input { channel: term, then } | Process::Let { value: term, then } => {
                term.has(index) || then.has_variable(index)
            }
            Process::If { left, right, then, otherwise } => {
                left.has(index) || right.has(index) || then.has_variable(index) || otherwise.has_variable(index)
            }
            Process::Par(left, right) => left.has_variable(index) || right.has_variable(index),
        }
    }
}

impl Formula {
    /// Whether the alias of this number occurs.
    pub fn has_alias(&self, index: usize) -> bool {
        match self {
            Formula::Equal(left, right) => left.has(index) || right.has(index),
            Formula::Not(body) | Formula::SilentStep(body) => body.has_alias(index),
            Formula::And(left, right) => left.has_alias(index) || right.has_alias(index),
            Formula::OutputStep { channel, body } => channel.has(index) || body.has_alias(index),
            Formula::InputStep { channel, message, body } => {
                channel.has(index) || message.has(index) || body.has_alias(index)
            }
        }
    }
}
