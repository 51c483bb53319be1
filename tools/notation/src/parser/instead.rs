//! Reading on after a habit of another notation: it is noted as a fault, and where it is clear what was meant, reading goes
//! on as if that stood there.

use super::habits::FUNCTIONS;
use super::terms::function;
use super::{Parser, Read};
use crate::fault::{Cause, Place};
use crate::lexer::{Token, RESERVED};
use crate::scope::is_abbreviation;
use crate::tree::{Kind, Tree};

/// Whether a label has parentheses, which it should not have.
#[derive(Clone, Copy)]
pub(super) struct Bracket(bool);

impl Parser {
    pub(super) fn is_foreign(&self, text: &str) -> bool {
        matches!(self.token(), Token::Foreign(found) if found == text)
    }

    /// Passes over a foreign token, noting what is written in its place.
    fn take_foreign(&mut self, text: &str, instead: &str) -> bool {
        let here = self.is_foreign(text);
        if here {
            self.note(self.place(), Cause::Syntax, instead);
            self.at += 1;
        }
        here
    }

    /// A `:` behind a word that starts a section.
    pub(super) fn skip_colon(&mut self) {
        self.take_foreign(":", "leave off this `:`");
    }

    /// A `;` or `.` behind a section.
    pub(super) fn skip_end(&mut self) {
        if self.take_foreign(";", "leave off this `;`") {
            return;
        }
        let last = *self.token_at(self.at + 1) == Token::End || self.is_boundary(self.at + 1);
        if self.is_symbol(".") && last {
            self.note(self.place(), Cause::Syntax, "leave off this `.`");
            self.at += 1;
        }
    }

    /// The `,` between public names, or what stands for it.
    pub(super) fn take_comma_of_names(&mut self) -> bool {
        let names_next = |at: usize| {
            matches!(self.token_at(at), Token::Word(word) if !is_abbreviation(word) && !RESERVED.contains(&word.as_str()))
                && *self.token_at(at + 1) == Token::Symbol("=")
        };
        if names_next(self.at) {
            self.note(self.place(), Cause::Syntax, "a `,` is missing between two public names");
            return true;
        }
        if self.is_foreign(";") && names_next(self.at + 1) {
            return self.take_foreign(";", "`;` is written `,` between public names");
        }
        self.take_symbol(",")
    }

    /// The `.` behind an action, or what stands for it, where something follows.
    pub(super) fn take_dot(&mut self) -> bool {
        let is_last = |token: &Token| matches!(token, Token::End | Token::Symbol(")" | "|"));
        if (self.is_symbol(".") || self.is_foreign(";"))
            && (is_last(self.token_at(self.at + 1)) || self.is_boundary(self.at + 1))
        {
            let written = if self.is_symbol(".") { "`.`" } else { "`;`" };
            self.note(self.place(), Cause::Syntax, format!("leave off the {written} where nothing follows"));
            self.at += 1;
            return false;
        }
        self.take_symbol(".") || self.take_semicolon()
    }

    pub(super) fn take_bang(&mut self, instead: &str) -> bool {
        self.take_foreign("!", instead)
    }

    pub(super) fn take_semicolon(&mut self) -> bool {
        self.take_foreign(";", "`;` is written `.`")
    }

    pub(super) fn take_double_bar(&mut self) -> bool {
        self.take_foreign("||", "`P || Q` is written `P | Q`")
    }

    pub(super) fn take_double_equals(&mut self) -> bool {
        self.take_foreign("==", "`==` is written `=`")
    }

    pub(super) fn take_unequal(&mut self) -> bool {
        self.take_foreign("<>", "`<>` is written `!=`") || self.take_foreign("≠", "`≠` is written `!=`")
    }

    pub(super) fn take_and(&mut self) -> bool {
        let written = |text: &str| format!("`{text}` is written `and`");
        self.take_word("and") || ["&&", "&", "/\\", "∧"].iter().any(|text| self.take_foreign(text, &written(text)))
    }

    pub(super) fn take_or(&mut self) -> bool {
        let written = |text: &str| format!("`{text}` is written `or`");
        self.take_word("or") || ["||", "\\/", "∨"].iter().any(|text| self.take_foreign(text, &written(text)))
    }

    /// `0` for a process that ends.
    pub(super) fn take_zero(&mut self) -> bool {
        let here = *self.token() == Token::Number(0);
        if here {
            self.note(self.place(), Cause::Syntax, "the process `0` is written `nil`");
            self.at += 1;
        }
        here
    }

    /// `tt`, unless it is a word that stands for something, or one side of an equation.
    pub(super) fn take_tt(&mut self) -> bool {
        self.take_constant("tt", "`tt` is written `true`")
    }

    /// `false` or `ff` in the same way.
    pub(super) fn take_false(&mut self) -> bool {
        self.take_constant("false", "`false` is written `not true`")
            || self.take_constant("ff", "`ff` is written `not true`")
    }

    fn take_constant(&mut self, word: &str, instead: &str) -> bool {
        let next = self.token_at(self.at + 1);
        let in_equation = [Token::Symbol("="), Token::Symbol("!=")].contains(next);
        let here = self.is_word(word) && !self.scope.knows(word) && !in_equation;
        if here {
            self.note(self.place(), Cause::Syntax, instead);
            self.at += 1;
        }
        here
    }

    /// The type of a word that is bound.
    pub(super) fn skip_type(&mut self) {
        if self.is_foreign(":") {
            let of = self.token_at(self.at + 1).clone();
            let what = if let Token::Word(word) = &of { format!(": {word}") } else { ":".to_string() };
            self.note(self.place(), Cause::Syntax, format!("words have no types: leave off `{what}`"));
            self.at += if matches!(of, Token::Word(_)) { 2 } else { 1 };
        }
    }

    /// What an `if` without `else` was meant to do.
    pub(super) fn no_else(&mut self) -> Tree {
        let hint = "an `if` has both branches, the second may be `else nil`";
        self.expected_but("`else`", Some(hint.to_string()));
        self.tree(Kind::Nil, self.place(), Vec::new())
    }

    /// A word, already passed, is applied to something; name 0 stands for it.
    pub(super) fn no_function(&mut self, word: &str, place: Place) -> Read<Tree> {
        let hint = match word {
            "senc" | "aenc" | "encrypt" | "sencrypt" => "enc(M, K) encrypts M under K",
            "sdec" | "adec" | "decrypt" | "sdecrypt" => "dec(M, K) decrypts M by K",
            "hmac" | "hash" | "h" | "sign" => "mac(M, K) has no equation, as a hash of two messages",
            "tuple" => "pair(M, N) is a pair",
            _ => FUNCTIONS,
        };
        self.note(place, Cause::Scope, format!("`{word}` is no function: {hint}"));
        let mut open = 0;
        while *self.token() != Token::End && !self.at_section() {
            open += i32::from(self.is_symbol("(")) - i32::from(self.is_symbol(")"));
            self.at += 1;
            if open == 0 {
                break;
            }
        }
        Ok(self.leaf(Kind::Name, place, 0))
    }

    /// The message of an input's label: a recipe, which binds nothing.
    pub(super) fn label_message(&mut self) -> Read<Tree> {
        let place = self.place();
        let Token::Word(word) = self.token().clone() else { return self.term() };
        let applied = *self.token_at(self.at + 1) == Token::Symbol("(");
        if !self.at_term() || applied || function(&word).is_some() || self.scope.knows(&word) {
            return self.term();
        }
        let message = format!("unknown word `{word}`: the label `in` has a recipe and binds nothing (rule 6)");
        self.note(place, Cause::Scope, message);
        self.at += 1;
        Ok(self.leaf(Kind::Name, place, 0))
    }

    /// The word that an output step binds.
    pub(super) fn alias(&mut self) -> Read<String> {
        if self.is_symbol(">") || self.is_symbol("]") {
            let hint = "an output step gives what is sent a word, as in `<out c x>`";
            return Err(self.expected_but("a word to bind", Some(hint.to_string())));
        }
        self.binder("an output step")
    }

    pub(super) fn take_bracket(&mut self, instead: &str) -> Bracket {
        let here = self.is_symbol("(");
        if here {
            self.note(self.place(), Cause::Syntax, format!("a label is written without parentheses: `<{instead}>`"));
            self.at += 1;
        }
        Bracket(here)
    }

    pub(super) fn take_comma(&mut self, bracket: Bracket) {
        self.at += usize::from(bracket.0 && self.is_symbol(","));
    }

    pub(super) fn take_closing(&mut self, bracket: Bracket) {
        self.at += usize::from(bracket.0 && self.is_symbol(")"));
    }
}
