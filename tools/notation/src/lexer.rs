//! A text as a list of tokens with their places. What is no token of the notation is one all the same, `Foreign`, so that
//! the parser can say what to write instead.

use crate::fault::Place;
use crate::text::{end, is_unseen, lines};
use std::fmt;

#[derive(Clone, Debug, PartialEq, Eq)]
pub enum Token {
    Word(String),
    Number(u32),
    Symbol(&'static str),
    Foreign(String),
    End,
}

#[derive(Clone, Debug, PartialEq, Eq)]
pub struct Lexeme {
    pub token: Token,
    pub place: Place,
}

pub const SYMBOLS: [&str; 11] = ["!=", "(", ")", ",", ".", "=", "<", ">", "[", "]", "|"];

/// Words that have a meaning of their own, and so name nothing else.
pub const RESERVED: [&str; 25] = [
    "nil", "new", "out", "in", "if", "then", "else", "let", "repl", "pair", "fst", "snd", "enc", "dec", "mac", "not",
    "and", "or", "tau", "true", "names", "first", "second", "formula", "answer",
];

/// Letters that the calculus and the logic are printed with, which stand for themselves.
const CALCULUS: [char; 2] = ['ν', 'τ'];

/// A word or number has so many characters at most, and of a token so many are told.
const LONGEST: usize = 255;
const TOLD: usize = 40;

/// What other notations have in more than one character; these are looked for first.
const FOREIGN: [&str; 11] = ["(*", "/*", "//", "&&", "||", "/\\", "\\/", "==", "=>", "->", "<>"];

impl fmt::Display for Token {
    fn fmt(&self, f: &mut fmt::Formatter<'_>) -> fmt::Result {
        match self {
            Token::Word(text) | Token::Foreign(text) => write!(f, "{}", told(text)),
            Token::Number(number) => write!(f, "`{number}`"),
            Token::Symbol(symbol) => write!(f, "`{symbol}`"),
            Token::End => write!(f, "the end of the text"),
        }
    }
}

/// A token as it stands; a character that is not seen, or may be taken for another, by its number.
fn told(text: &str) -> String {
    let cut: String = text.chars().take(TOLD).collect();
    let dots = if text.chars().count() > TOLD { ".." } else { "" };
    match text.chars().find(|c| !c.is_ascii() || is_unseen(*c)) {
        Some(c) if is_unseen(c) => format!("the character U+{:04X}", u32::from(c)),
        Some(c) if text.chars().count() == 1 => format!("`{c}` (U+{:04X})", u32::from(c)),
        Some(c) => format!("`{cut}{dots}`, in which `{c}` is U+{:04X}", u32::from(c)),
        None => format!("`{cut}{dots}`"),
    }
}

/// The tokens of a text, `Token::End` last.
pub fn lexemes(text: &str) -> Vec<Lexeme> {
    let mut lexemes = Vec::new();
    for (index, line) in lines(text).into_iter().enumerate() {
        let code = line.split('#').next().unwrap_or("");
        of_line(code, index + 1, &mut lexemes);
    }
    lexemes.push(Lexeme { token: Token::End, place: end(text.trim_end()) });
    lexemes
}

fn of_line(code: &str, line: usize, lexemes: &mut Vec<Lexeme>) {
    let (mut rest, mut column) = (code, 1);
    loop {
        let text = rest.trim_start();
        column += rest[..rest.len() - text.len()].chars().count();
        if text.is_empty() {
            return;
        }
        let (token, length) = first_token(text);
        lexemes.push(Lexeme { token, place: Place { line, column } });
        column += text[..length].chars().count();
        rest = &text[length..];
    }
}

/// The token at the start of a text that does not start with a blank, and its length in bytes.
fn first_token(text: &str) -> (Token, usize) {
    if let Some(foreign) = FOREIGN.iter().find(|foreign| text.starts_with(**foreign)) {
        return (Token::Foreign(foreign.to_string()), foreign.len());
    }
    if let Some(symbol) = SYMBOLS.iter().find(|symbol| text.starts_with(**symbol)) {
        return (Token::Symbol(symbol), symbol.len());
    }
    let first = text.chars().next().unwrap_or(' ');
    let length = match text.find(|c: char| !c.is_alphanumeric() && c != '_').unwrap_or(text.len()) {
        0 => first.len_utf8(),
        _ if CALCULUS.contains(&first) => first.len_utf8(),
        length => length,
    };
    let run = &text[..length];
    let foreign = Token::Foreign(run.to_string());
    let is_word = run.len() <= LONGEST && run.chars().all(|c| c.is_ascii_alphanumeric() || c == '_');
    let token = match is_word {
        false => foreign,
        true if first.is_ascii_digit() => run.parse().map_or(foreign, Token::Number),
        true => Token::Word(run.to_string()),
    };
    (token, length)
}
