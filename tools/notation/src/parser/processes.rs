//! Processes.

use super::{Parser, Read};
use crate::fault::Place;
use crate::lexer::Token;
use crate::tree::{Kind, Tree};

impl Parser {
    /// What `|` separates; it groups to the right.
    pub(super) fn process(&mut self) -> Read<Tree> {
        let place = self.place();
        let left = self.sequence()?;
        if !self.take_symbol("|") && !self.take_double_bar() {
            return Ok(left);
        }
        let right = self.node(Parser::process)?;
        Ok(self.tree(Kind::Par, place, vec![left, right]))
    }

    fn sequence(&mut self) -> Read<Tree> {
        let place = self.place();
        if self.take_symbol("(") {
            let inside = self.node(Parser::process)?;
            self.close(")", "(", place)?;
            return Ok(inside);
        }
        if self.at_abbreviation() {
            let nil = self.tree(Kind::Nil, place, Vec::new());
            return self.abbreviation(Parser::process, nil);
        }
        match self.token().clone() {
            Token::Word(word) => self.node(|parser| parser.sequence_from(&word, place)),
            _ if self.take_bang("`!P` is written `repl P`") => self.node(|parser| parser.replication(place)),
            _ if self.take_zero() => Ok(self.tree(Kind::Nil, place, Vec::new())),
            _ => Err(self.expected_process()),
        }
    }

    fn sequence_from(&mut self, word: &str, place: Place) -> Read<Tree> {
        let read = match word {
            "nil" => Parser::nil,
            "new" => Parser::new_names,
            "out" => Parser::output,
            "in" => Parser::input,
            "if" => Parser::branch,
            "let" => Parser::let_in,
            "repl" => Parser::replication,
            _ => return Err(self.expected_process()),
        };
        self.at += 1;
        read(self, place)
    }

    fn nil(&mut self, place: Place) -> Read<Tree> {
        Ok(self.tree(Kind::Nil, place, Vec::new()))
    }

    fn replication(&mut self, place: Place) -> Read<Tree> {
        let copy = self.sequence()?;
        Ok(self.tree(Kind::Repl, place, vec![copy]))
    }

    /// One name, then the others in the same way, or the dot. Each further one has the place of its word.
    fn new_names(&mut self, place: Place) -> Read<Tree> {
        let word = self.binder("`new`")?;
        let then = if self.take_symbol(",") {
            let next = self.place();
            self.node(|parser| parser.new_names(next))?
        } else {
            if !self.take_symbol(".") && !self.take_semicolon() {
                return Err(self.expected("`,` or `.`"));
            }
            self.sequence()?
        };
        self.scope.unbind();
        Ok(Tree { word: Some(word), ..self.tree(Kind::New, place, vec![then]) })
    }

    fn output(&mut self, place: Place) -> Read<Tree> {
        let open = self.place();
        self.symbol("(")?;
        let channel = self.term()?;
        self.symbol(",")?;
        let message = self.term()?;
        self.end_of_action("an output sends one message; pair(M, N) is two in one", open)?;
        let then = self.rest()?;
        Ok(self.tree(Kind::Output, place, vec![channel, message, then]))
    }

    fn input(&mut self, place: Place) -> Read<Tree> {
        let open = self.place();
        self.symbol("(")?;
        let channel = self.term()?;
        self.symbol(",")?;
        let word = self.binder("`in`")?;
        self.end_of_action("an input binds one word, as p; its parts are fst(p) and snd(p)", open)?;
        let then = self.rest()?;
        self.scope.unbind();
        Ok(Tree { word: Some(word), ..self.tree(Kind::Input, place, vec![channel, then]) })
    }

    /// What follows an output or input; left off, it is nil, at the place behind.
    fn rest(&mut self) -> Read<Tree> {
        if self.take_dot() {
            self.sequence()
        } else {
            Ok(self.tree(Kind::Nil, self.place(), Vec::new()))
        }
    }

    fn branch(&mut self, place: Place) -> Read<Tree> {
        let left = self.term()?;
        self.equals()?;
        let right = self.term()?;
        self.then()?;
        let then = self.sequence()?;
        let otherwise = if self.take_word("else") { self.sequence()? } else { self.no_else() };
        Ok(self.tree(Kind::If, place, vec![left, right, then, otherwise]))
    }

    fn let_in(&mut self, place: Place) -> Read<Tree> {
        let (word, at) = self.word_to_bind("`let`")?;
        self.skip_type();
        self.equals()?;
        let value = self.term()?;
        self.keyword("in")?;
        self.bind(&word, at);
        let then = self.sequence()?;
        self.scope.unbind();
        Ok(Tree { word: Some(word), ..self.tree(Kind::Let, place, vec![value, then]) })
    }
}
