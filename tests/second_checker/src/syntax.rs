//! Terms, processes and formulas as trees (document 01, "Bytes").

/// A term of a model, or a recipe of a formula: there a variable is an alias.
#[derive(Clone, Debug, PartialEq, Eq)]
pub enum Term {
    Name(u16),
    Variable(usize),
    Pair(Box<Term>, Box<Term>),
    Fst(Box<Term>),
    Snd(Box<Term>),
    Enc(Box<Term>, Box<Term>),
    Dec(Box<Term>, Box<Term>),
    Mac(Box<Term>, Box<Term>),
}

/// A process. New, input and let bind one variable in what follows; variables are numbered from 0, outermost first.
#[derive(Clone, Debug, PartialEq, Eq)]
pub enum Process {
    Nil,
    New(Box<Process>),
    Output { channel: Term, message: Term, then: Box<Process> },
    Input { channel: Term, then: Box<Process> },
    If { left: Term, right: Term, then: Box<Process>, otherwise: Box<Process> },
    Let { value: Term, then: Box<Process> },
    Par(Box<Process>, Box<Process>),
    Repl(Box<Process>),
}

/// A formula of classical FM. An output step is around its body alone, and adds the next alias there.
#[derive(Clone, Debug, PartialEq, Eq)]
pub enum Formula {
    Equal(Term, Term),
    Not(Box<Formula>),
    And(Box<Formula>, Box<Formula>),
    OutputStep { channel: Term, body: Box<Formula> },
    InputStep { channel: Term, message: Term, body: Box<Formula> },
    SilentStep(Box<Formula>),
}
