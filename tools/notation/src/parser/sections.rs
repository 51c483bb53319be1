//! The sections of a finding, in their order. After a fault in one, reading goes on at the next.

use super::{Parser, Read, Stop, MOST_NODES};
use crate::fault::{Cause, Fault, Place};
use crate::lexer::Token;
use crate::scope::{is_abbreviation, Meaning};
use crate::tree::Tree;

const SECTIONS: [&str; 4] = ["first", "second", "formula", "answer"];

impl Parser {
    /// What stands before `names` is told, and passed over.
    pub(super) fn names(&mut self) {
        if !self.is_word("names") && !self.at_boundary() {
            self.expected_section("first");
            while !self.is_word("names") && !self.at_boundary() {
                self.at += 1;
            }
        }
        if self.take_word("names") && self.name_list().is_err() {
            self.skip_to("first");
        }
    }

    fn name_list(&mut self) -> Read<()> {
        self.skip_colon();
        self.name()?;
        while self.take_comma_of_names() {
            if self.at_boundary() {
                self.note(self.place_at(self.at - 1), Cause::Syntax, "leave this off: no public name follows");
                return Ok(());
            }
            self.name()?;
        }
        self.skip_end();
        Ok(())
    }

    fn name(&mut self) -> Read<()> {
        let (word, place) = self.word("a word for a public name")?;
        self.skip_type();
        self.symbol("=")?;
        let number = self.name_number(&word, place)?;
        if let Err(message) = self.scope.name(&word, number, place) {
            self.note(place, Cause::Scope, message);
        }
        Ok(())
    }

    /// A number that no word before has, or a word before, whose number it is on purpose.
    fn name_number(&mut self, word: &str, place: Place) -> Read<usize> {
        if let Token::Word(other) = self.token().clone() {
            return self.same_name(&other);
        }
        let number = self.public_name()?;
        if let Some(other) = self.scope.word_of(number).filter(|other| *other != word) {
            let message =
                format!("`{word}` and `{other}` are one public name, {number}; if so meant: `{word} = {other}`");
            self.note(place, Cause::Scope, message);
        }
        Ok(number)
    }

    fn same_name(&mut self, word: &str) -> Read<usize> {
        if crate::lexer::RESERVED.contains(&word) || is_abbreviation(word) {
            return Err(self.expected("a number"));
        }
        let place = self.place();
        self.at += 1;
        if let Some(Meaning::Name(number)) = self.scope.meaning(word) {
            return Ok(number);
        }
        self.note(
            place,
            Cause::Scope,
            format!("`{word}` is no public name before this one; expected that, or a number"),
        );
        Ok(0)
    }

    /// What is behind a section's word; none where that is missing, or not clear.
    pub(super) fn section(&mut self, word: &str, inside: fn(&mut Parser) -> Read<Tree>) -> Option<Tree> {
        if !self.start(word) {
            return None;
        }
        self.skip_colon();
        (self.nodes, self.depth, self.within) = (0, 0, None);
        let read = inside(self);
        self.scope.unbind_all();
        self.skip_end();
        if read.is_err() {
            self.skip();
        }
        read.ok()
    }

    /// Passes over abbreviations and the word that starts a section.
    fn start(&mut self, word: &str) -> bool {
        self.definitions();
        if self.take_word(word) {
            return true;
        }
        self.expected_section(word);
        self.skip_to(word);
        self.definitions();
        self.take_word(word)
    }

    fn expected_section(&mut self, word: &str) {
        let hint = self.section_hint();
        self.expected_but(&format!("`{word}`"), hint);
    }

    /// Passes over all up to the next section or abbreviation.
    fn skip(&mut self) {
        while !self.at_boundary() {
            self.at += 1;
        }
    }

    pub(super) fn at_boundary(&self) -> bool {
        self.is_boundary(self.at)
    }

    /// Whether a section, an abbreviation or the end is at a token.
    pub(super) fn is_boundary(&self, at: usize) -> bool {
        self.at_definition(at) || self.is_section(at)
    }

    /// The same, but sections before `word` are passed over too.
    fn skip_to(&mut self, word: &str) {
        let order = |word: &str| SECTIONS.iter().position(|section| *section == word);
        self.skip();
        while matches!(self.token(), Token::Word(found) if order(found) < order(word)) && self.at_section() {
            self.at += 1;
            self.skip();
        }
    }

    fn definitions(&mut self) {
        while self.at_definition(self.at) {
            if self.definition().is_err() {
                self.skip();
            }
        }
    }

    fn at_definition(&self, at: usize) -> bool {
        matches!(self.token_at(at), Token::Word(word) if is_abbreviation(word))
            && *self.token_at(at + 1) == Token::Symbol("=")
    }

    /// Notes where the text of an abbreviation stands, and passes over it.
    fn definition(&mut self) -> Read<()> {
        let (word, place) = self.word("an abbreviation")?;
        self.symbol("=")?;
        let start = self.at;
        self.skip();
        if let Err(message) = self.scope.abbreviate(&word, place, start, self.at) {
            self.note(place, Cause::Scope, message);
        }
        Ok(())
    }

    pub(super) fn at_section(&self) -> bool {
        self.is_section(self.at)
    }

    fn is_section(&self, at: usize) -> bool {
        match self.token_at(at) {
            Token::Word(word) => SECTIONS.contains(&word.as_str()),
            token => *token == Token::End,
        }
    }

    /// The four numbers behind `answer`, and its place.
    pub(super) fn answer(&mut self) -> Option<([u32; 4], Place)> {
        let place = self.place();
        if !self.take_word("answer") {
            return None;
        }
        self.skip_colon();
        let numbers = self.four_numbers();
        self.skip_end();
        if numbers.is_err() {
            self.at = self.lexemes.len();
        }
        numbers.ok().map(|numbers| (numbers, place))
    }

    fn four_numbers(&mut self) -> Result<[u32; 4], Stop> {
        Ok([self.number()?, self.number()?, self.number()?, self.number()?])
    }

    pub(super) fn end(&mut self) {
        if *self.token() != Token::End {
            self.expected("the end of the text");
        }
    }

    /// Reads what is in abbreviations that are not used, as a process and as a formula. What their words stand for is not
    /// known; what is neither is told.
    pub(super) fn unused_abbreviations(&mut self) {
        self.nodes = 0;
        for (index, unused) in self.scope.unused_abbreviations() {
            let shown = self.scope.show(index);
            let process = self.attempt(unused.start, unused.end, Parser::process);
            let formula = self.attempt(unused.start, unused.end, Parser::formula);
            self.scope.show(shown);
            if self.nodes > MOST_NODES {
                return;
            }
            if let (Some(process), Some(formula)) = (process, formula) {
                // The one that could be read further.
                self.faults.push(if formula.place > process.place { formula } else { process });
            }
        }
    }

    /// The first fault of syntax from one token up to another, if there is any.
    fn attempt(&mut self, start: usize, end: usize, inside: fn(&mut Parser) -> Read<Tree>) -> Option<Fault> {
        let (faults, warnings) = (std::mem::take(&mut self.faults), std::mem::take(&mut self.warnings));
        (self.at, self.depth, self.within) = (start, 0, None);
        if inside(self).is_ok() && self.at != end {
            self.expected("the end of the abbreviation");
        }
        let found = std::mem::replace(&mut self.faults, faults);
        self.warnings = warnings;
        found.into_iter().find(|fault| fault.cause == Cause::Syntax && fault.within.is_none())
    }
}
