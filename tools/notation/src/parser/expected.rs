//! What should stand somewhere, and what may have been meant by what does.

use super::habits::foreign;
use super::terms::function;
use super::{Parser, Read, Stop};
use crate::fault::Place;
use crate::lexer::{Token, RESERVED};

impl Parser {
    /// The `,` or `)` behind a term of a function that takes so many.
    pub(super) fn between_terms(&mut self, symbol: &str, word: &str, arity: usize, open: Place) -> Read<()> {
        if self.is_symbol(symbol) || !(self.is_symbol(",") || self.is_symbol(")")) {
            return if symbol == ")" { self.close(")", "(", open) } else { self.symbol(symbol) };
        }
        let terms = if arity == 1 { "one term" } else { "two terms" };
        Err(self.expected_but(&format!("`{symbol}`"), Some(format!("`{word}` takes {terms}"))))
    }

    /// The `)` of an output or input.
    pub(super) fn end_of_action(&mut self, hint: &str, open: Place) -> Read<()> {
        match self.is_symbol(",") {
            true => Err(self.expected_but("`)`", Some(hint.to_string()))),
            false => self.close(")", "(", open),
        }
    }

    /// The word that an input or a `let` binds.
    pub(super) fn pattern_hint(&self, what: &str) -> Option<String> {
        let pair = format!("{what} binds one word, as p; its parts are fst(p) and snd(p)");
        let test = format!("{what} binds a word, as x; write `if x = M then P else nil` after it");
        let is_pattern = matches!(self.token(), Token::Word(word) if function(word).is_some());
        if self.is_symbol("(") && what == "`new`" {
            Some("several private names are written `new k, l. P`".to_string())
        } else if self.is_symbol("(") || is_pattern {
            Some(pair)
        } else if self.is_symbol("=") {
            Some(test)
        } else {
            foreign(self.token())
        }
    }

    /// What may have been meant where a section should start.
    pub(super) fn section_hint(&self) -> Option<String> {
        let next = self.token_at(self.at + 1);
        if let Some(symbol) = [")", ">", "]"].into_iter().find(|symbol| self.is_symbol(symbol)) {
            return Some(format!("there is nothing open that `{symbol}` closes"));
        }
        if self.is_word("else") {
            return Some("only an `if` has an `else`; nothing in a `let` can fail".to_string());
        }
        match self.token() {
            Token::End if self.lexemes.len() == 1 => Some("there is nothing in it but blanks and comments".to_string()),
            Token::Word(word) if self.at_abbreviation() && *next == Token::Symbol("(") => Some(format!(
                "an abbreviation is written `{word} = ..`, and its words mean what they mean where it is used"
            )),
            Token::Word(word) if *next == Token::Symbol("=") && !RESERVED.contains(&word.as_str()) => {
                Some("an abbreviation starts with a capital letter".to_string())
            }
            token => foreign(token),
        }
    }

    /// The `=` of an `if` or a `let`.
    pub(super) fn equals(&mut self) -> Read<()> {
        if self.take_symbol("=") || self.take_double_equals() {
            return Ok(());
        }
        let unequal = self.is_symbol("!=") || self.is_foreign("<>");
        let hint = unequal.then(|| "write `if M = N then Q else P`".to_string());
        Err(self.expected_but("`=`", hint.or(foreign(self.token()))))
    }

    /// The `then` of an `if`.
    pub(super) fn then(&mut self) -> Read<()> {
        if self.is_word("and") || self.is_word("or") {
            return Err(self.expected_but("`then`", Some("an `if` has one equation; write one `if` in another".into())));
        }
        self.keyword("then")
    }

    pub(super) fn expected_term(&mut self) -> Stop {
        let pair = "terms have no parentheses around them; a pair is written `pair(M, N)`".to_string();
        let hint = self.is_symbol("(").then_some(pair).or(foreign(self.token()));
        self.expected_but("a term", hint)
    }

    pub(super) fn expected_process(&mut self) -> Stop {
        let applied = matches!(self.token(), Token::Word(word) if !RESERVED.contains(&word.as_str()))
            && [Token::Symbol("("), Token::Symbol("<")].contains(self.token_at(self.at + 1));
        let calculus = "an output is written `out(c, m). P`, and an input `in(c, x). P`".to_string();
        let after_dot = self.at > 0 && *self.token_at(self.at - 1) == Token::Symbol(".");
        let dot = "leave off the `.` where nothing follows".to_string();
        let hint = foreign(self.token()).or(applied.then_some(calculus)).or(after_dot.then_some(dot));
        self.expected_but("a process", hint)
    }

    pub(super) fn expected_formula(&mut self) -> Stop {
        let silent = self.is_foreign("<>").then(|| "a silent step is written `<tau> F`".to_string());
        let hint = silent.or(foreign(self.token()));
        self.expected_but("a formula", hint)
    }

    pub(super) fn expected_label(&mut self) -> Stop {
        let hint = "a step formula is `<out c x> F`, `<in c M> F` or `<tau> F`";
        self.expected_but("`out`, `in` or `tau`", Some(hint.to_string()))
    }
}
