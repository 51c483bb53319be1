//! Terms and recipes.

use super::{Parser, Read};
use crate::fault::{Cause, Place};
use crate::lexer::{Token, RESERVED};
use crate::scope::{is_abbreviation, Meaning};
use crate::syntax::LARGEST_NAME;
use crate::tree::{Kind, Tree};

/// The kind of term that a reserved word starts, and how many terms that has.
pub(super) fn function(word: &str) -> Option<(Kind, usize)> {
    match word {
        "pair" => Some((Kind::Pair, 2)),
        "fst" => Some((Kind::Fst, 1)),
        "snd" => Some((Kind::Snd, 1)),
        "enc" => Some((Kind::Enc, 2)),
        "dec" => Some((Kind::Dec, 2)),
        "mac" => Some((Kind::Mac, 2)),
        _ => None,
    }
}

impl Parser {
    /// Whether a term starts here, known or not.
    pub(super) fn at_term(&self) -> bool {
        match self.token() {
            Token::Number(_) => true,
            Token::Word(word) => function(word).is_some() || !RESERVED.contains(&word.as_str()),
            _ => false,
        }
    }

    pub(super) fn term(&mut self) -> Read<Tree> {
        if !self.at_term() {
            return Err(self.expected_term());
        }
        self.node(|parser| match parser.token().clone() {
            Token::Word(word) => match function(&word) {
                Some((kind, arity)) => parser.applied(&word, kind, arity),
                None => parser.known(&word),
            },
            _ => parser.number_as_name(),
        })
    }

    /// A public name's number. There are no bytes for one over the limit.
    pub(super) fn public_name(&mut self) -> Read<usize> {
        let place = self.place();
        let number = self.number()? as usize;
        if number > usize::from(LARGEST_NAME) {
            self.note(place, Cause::Scope, format!("a public name is 0 to {LARGEST_NAME}, found {number}"));
        }
        Ok(number)
    }

    fn number_as_name(&mut self) -> Read<Tree> {
        let place = self.place();
        let number = self.public_name()?;
        if let Some(word) = self.scope.word_of(number) {
            let message = format!("the public name {number} is `{word}`; should it be the same here?");
            self.note(place, Cause::Doubt, message);
        }
        Ok(self.leaf(Kind::Name, place, number))
    }

    fn applied(&mut self, word: &str, kind: Kind, arity: usize) -> Read<Tree> {
        let place = self.place();
        self.at += 1;
        let open = self.place();
        self.symbol("(")?;
        let mut parts = vec![self.term()?];
        while parts.len() < arity {
            self.between_terms(",", word, arity, open)?;
            parts.push(self.term()?);
        }
        self.between_terms(")", word, arity, open)?;
        Ok(self.tree(kind, place, parts))
    }

    fn known(&mut self, word: &str) -> Read<Tree> {
        let place = self.place();
        self.at += 1;
        match self.scope.meaning(word) {
            _ if self.is_symbol("(") => self.no_function(word, place),
            Some(Meaning::Name(number)) => Ok(self.leaf(Kind::Name, place, number)),
            Some(Meaning::Variable(index)) => Ok(self.leaf(Kind::Variable, place, index)),
            None => Ok(self.unknown(word, place)),
        }
    }

    /// An unknown word, told once; name 0 stands for it.
    fn unknown(&mut self, word: &str, place: Place) -> Tree {
        let message = match word {
            "_" => "`_` binds what is not used, and stands for nothing".to_string(),
            _ if is_abbreviation(word) => format!("`{word}` is no term: abbreviations are processes or formulas"),
            _ => format!("unknown word `{word}`: it is no public name, and nothing around binds it (rule 6)"),
        };
        let known = message.split(':').next().unwrap_or_default();
        if !self.faults.iter().any(|fault| fault.message.starts_with(known)) {
            self.note(place, Cause::Scope, message);
        }
        self.leaf(Kind::Name, place, 0)
    }
}
