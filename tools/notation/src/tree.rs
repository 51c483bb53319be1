//! Terms, processes and formulas as they are written: each node with its place in the text, and the word that it binds.

use crate::fault::{Place, Within};

#[derive(Clone, Copy, Debug, PartialEq, Eq)]
pub enum Sort {
    Term,
    Process,
    Formula,
}

/// The kinds of document 01's "Bytes": eight of terms, eight of processes, six of formulas, each in its order.
#[derive(Clone, Copy, Debug, PartialEq, Eq)]
pub enum Kind {
    Name,
    Variable,
    Pair,
    Fst,
    Snd,
    Enc,
    Dec,
    Mac,
    Nil,
    New,
    Output,
    Input,
    If,
    Let,
    Par,
    Repl,
    Equal,
    Not,
    And,
    OutputStep,
    InputStep,
    SilentStep,
}

impl Kind {
    pub fn sort(self) -> Sort {
        [Sort::Term, Sort::Process, Sort::Formula][self as usize / 8]
    }

    /// The number of the kind among those of its sort.
    pub fn number(self) -> u8 {
        self as u8 % 8
    }

    pub fn binds_variable(self) -> bool {
        matches!(self, Kind::New | Kind::Input | Kind::Let)
    }

    pub fn is_step(self) -> bool {
        matches!(self, Kind::OutputStep | Kind::InputStep | Kind::SilentStep)
    }
}

#[derive(Clone, Debug, PartialEq, Eq)]
pub struct Tree {
    pub kind: Kind,
    /// The number of a public name, a variable or an alias.
    pub number: Option<usize>,
    /// The word that new, input, let or an output step binds.
    pub word: Option<String>,
    pub place: Place,
    pub within: Within,
    pub parts: Vec<Tree>,
}
