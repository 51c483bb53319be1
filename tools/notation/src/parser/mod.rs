//! Reads the notation by recursive descent. Words are looked up as they are met. A fault is noted, and reading goes on where
//! it is clear what was meant; where it is not, it goes on at the next section of the finding.

mod expected;
pub mod findings;
mod formulas;
mod habits;
mod instead;
mod processes;
mod sections;
mod terms;

use crate::fault::{Cause, Fault, Place, Use, Within};
use crate::lexer::{Lexeme, Token};
use crate::scope::{is_abbreviation, Scope};
use crate::tree::{Kind, Tree};
use std::sync::Arc;

/// Nodes on one path, parentheses included, and nodes in all: more than slices within the rules need.
const DEEPEST: usize = 200;
const MOST_NODES: usize = 65_536;

/// A fault was noted, after which it is not clear how to go on.
struct Stop;

type Read<T> = Result<T, Stop>;

struct Parser {
    lexemes: Vec<Lexeme>,
    at: usize,
    depth: usize,
    nodes: usize,
    scope: Scope,
    within: Within,
    faults: Vec<Fault>,
    warnings: Vec<Fault>,
}

impl Parser {
    fn new(lexemes: Vec<Lexeme>) -> Parser {
        Parser {
            lexemes,
            at: 0,
            depth: 0,
            nodes: 0,
            scope: Scope::default(),
            within: None,
            faults: Vec::new(),
            warnings: Vec::new(),
        }
    }

    fn token(&self) -> &Token {
        self.token_at(self.at)
    }

    fn token_at(&self, at: usize) -> &Token {
        self.lexemes.get(at).map_or(&Token::End, |lexeme| &lexeme.token)
    }

    fn place(&self) -> Place {
        self.place_at(self.at)
    }

    fn place_at(&self, at: usize) -> Place {
        let last = self.lexemes.len().saturating_sub(1);
        self.lexemes.get(at.min(last)).map_or(Place { line: 1, column: 1 }, |lexeme| lexeme.place)
    }

    fn note(&mut self, place: Place, cause: Cause, message: impl Into<String>) {
        let (message, within) = (message.into(), self.within.clone());
        let notes = if cause == Cause::Doubt { &mut self.warnings } else { &mut self.faults };
        notes.push(Fault { place, cause, message, within });
    }

    /// Something else should stand here; `hint`, where there is one, says more.
    fn expected_but(&mut self, what: &str, hint: Option<String>) -> Stop {
        let hint = hint.map_or(String::new(), |hint| format!(": {hint}"));
        let message = format!("expected {what}, found {}{hint}", self.token());
        self.note(self.place(), Cause::Syntax, message);
        Stop
    }

    fn expected(&mut self, what: &str) -> Stop {
        let hint = habits::foreign(self.token());
        self.expected_but(what, hint)
    }

    fn is_symbol(&self, symbol: &str) -> bool {
        matches!(self.token(), Token::Symbol(found) if *found == symbol)
    }

    fn is_word(&self, word: &str) -> bool {
        matches!(self.token(), Token::Word(found) if found == word)
    }

    fn take_symbol(&mut self, symbol: &str) -> bool {
        let here = self.is_symbol(symbol);
        self.at += usize::from(here);
        here
    }

    fn take_word(&mut self, word: &str) -> bool {
        let here = self.is_word(word);
        self.at += usize::from(here);
        here
    }

    fn symbol(&mut self, symbol: &str) -> Read<()> {
        if self.take_symbol(symbol) {
            Ok(())
        } else {
            Err(self.expected(&format!("`{symbol}`")))
        }
    }

    /// The symbol that closes what was opened at a place.
    fn close(&mut self, symbol: &str, open: &str, place: Place) -> Read<()> {
        if self.take_symbol(symbol) {
            return Ok(());
        }
        let hint = habits::foreign(self.token()).unwrap_or(format!("the `{open}` at {place} is not closed"));
        Err(self.expected_but(&format!("`{symbol}`"), Some(hint)))
    }

    fn keyword(&mut self, word: &str) -> Read<()> {
        if self.take_word(word) {
            Ok(())
        } else {
            Err(self.expected(&format!("`{word}`")))
        }
    }

    fn number(&mut self) -> Read<u32> {
        let Token::Number(number) = *self.token() else { return Err(self.expected("a number")) };
        self.at += 1;
        Ok(number)
    }

    fn word(&mut self, what: &str) -> Read<(String, Place)> {
        let Token::Word(word) = self.token().clone() else { return Err(self.expected(what)) };
        let place = self.place();
        self.at += 1;
        Ok((word, place))
    }

    /// Binds a word from here on; `unbind` of the scope ends that.
    fn bind(&mut self, word: &str, place: Place) {
        if let Err(message) = self.scope.bind(word, place) {
            self.note(place, Cause::Scope, message);
        }
    }

    /// A word that `what` binds.
    fn binder(&mut self, what: &str) -> Read<String> {
        let (word, place) = self.word_to_bind(what)?;
        self.skip_type();
        self.bind(&word, place);
        Ok(word)
    }

    fn word_to_bind(&mut self, what: &str) -> Read<(String, Place)> {
        if !matches!(self.token(), Token::Word(word) if terms::function(word).is_none()) {
            let hint = self.pattern_hint(what);
            return Err(self.expected_but("a word to bind", hint));
        }
        self.word("a word to bind")
    }

    fn tree(&self, kind: Kind, place: Place, parts: Vec<Tree>) -> Tree {
        Tree { kind, number: None, word: None, place, within: self.within.clone(), parts }
    }

    fn leaf(&self, kind: Kind, place: Place, number: usize) -> Tree {
        Tree { number: Some(number), ..self.tree(kind, place, Vec::new()) }
    }

    /// One node of a tree more, and what is inside it.
    fn node<T>(&mut self, inside: impl FnOnce(&mut Parser) -> Read<T>) -> Read<T> {
        self.nodes += 1;
        self.depth += 1;
        if self.nodes > MOST_NODES || self.depth > DEEPEST {
            let many = format!("more than {MOST_NODES} nodes");
            let deep = format!("nested more than {DEEPEST} deep, parentheses included");
            self.note(self.place(), Cause::Syntax, if self.nodes > MOST_NODES { many } else { deep });
            return Err(Stop);
        }
        let read = inside(self);
        self.depth -= 1;
        read
    }

    fn at_abbreviation(&self) -> bool {
        matches!(self.token(), Token::Word(word) if is_abbreviation(word))
    }

    /// The abbreviation whose name is here, its text read by `inside` as if it stood here. Where that stops, `instead`
    /// stands for it.
    fn abbreviation(&mut self, inside: fn(&mut Parser) -> Read<Tree>, instead: Tree) -> Read<Tree> {
        let (word, place) = self.word("an abbreviation")?;
        let Some((index, found)) = self.scope.abbreviation(&word) else {
            self.note(place, Cause::Scope, format!("unknown abbreviation `{word}`"));
            return Ok(instead);
        };
        let (back, depth, shown) = (self.at, self.depth, self.scope.show(index));
        let outer = self.within.take();
        self.within = Some(Arc::new(Use { word, place, outer: outer.clone() }));
        self.at = found.start;
        let read = self.node(inside);
        if read.is_ok() && self.at != found.end {
            self.expected("the end of the abbreviation");
        }
        (self.within, self.at) = (outer, back);
        self.scope.show(shown);
        match read {
            Err(Stop) if self.nodes > MOST_NODES || self.depth > DEEPEST => Err(Stop),
            Err(Stop) => {
                self.depth = depth;
                Ok(instead)
            }
            read => read,
        }
    }
}
