//! What users of ProVerif and of the applied pi-calculus write, and what is written here.

use crate::fault::Place;
use crate::lexer::{Lexeme, Token};

pub(super) const FUNCTIONS: &str = "the functions are pair, fst, snd, enc, dec and mac";

/// Words that other notations start a process, a formula or a declaration with.
const WORDS: [(&str, &str); 20] = [
    ("free", "public names are declared at the top, as in `names c = 0, d = 1`"),
    ("const", "public names are declared at the top, as in `names c = 0, d = 1`"),
    ("type", "there are no types"),
    ("fun", FUNCTIONS),
    ("reduc", "the equations are fixed: those of fst, snd, dec and enc"),
    ("equation", "the equations are fixed: those of fst, snd, dec and enc"),
    ("process", "the models are written behind `first` and `second`"),
    ("event", "there are no events"),
    ("query", "what is asked is written behind `formula`"),
    ("phase", "there are no phases"),
    ("nu", "a private name is written `new k. P`"),
    ("stop", "it is written `nil`"),
    ("skip", "it is written `nil`"),
    ("send", "an output is written `out(c, m). P`"),
    ("output", "an output is written `out(c, m). P`"),
    ("receive", "an input is written `in(c, x). P`"),
    ("input", "an input is written `in(c, x). P`"),
    ("rec", "copies without end are written `repl P`"),
    ("bang", "copies without end are written `repl P`"),
    ("implies", "it is written `not F or G`"),
];

/// What to write for a token that is no part of the notation.
pub(super) fn foreign(token: &Token) -> Option<String> {
    let text = match token {
        Token::Foreign(text) => text.as_str(),
        Token::Word(word) => return WORDS.iter().find(|(known, _)| known == word).map(|(_, hint)| hint.to_string()),
        _ => return None,
    };
    let hint = match text {
        ";" => "leave it off, or write `.` between an action and what follows",
        ":" => "words have no types",
        "!" => "copies without end are written `repl P`, and negation is written `not F`",
        "||" => "it is written `|` between processes, and `or` between formulas",
        "&&" | "&" | "/\\" | "∧" => "it is written `and`; in a process, write one `if` in another",
        "\\/" | "∨" => "it is written `or`",
        "==" => "it is written `=`",
        "<>" | "≠" => "it is written `!=`, in formulas alone",
        "=>" | "->" => "`F implies G` is written `not F or G`",
        "ν" => "a private name is written `new k. P`",
        "¬" | "~" => "it is written `not`",
        "τ" => "it is written `tau`",
        "⟨" | "⟩" => "it is written `<` and `>`",
        _ if text.chars().all(|c| c.is_ascii_digit()) => "this number is too large",
        _ if text.is_ascii() && text.len() > 255 => "a word has at most 255 characters",
        _ if text.starts_with(|c: char| c.is_ascii_digit()) => "a word starts with a letter",
        _ => "this is no part of the notation",
    };
    Some(hint.to_string())
}

/// Leaves out comments as other notations write them, and gives their places.
pub(super) fn without_comments(lexemes: Vec<Lexeme>) -> (Vec<Lexeme>, Vec<Place>) {
    let (mut kept, mut places) = (Vec::new(), Vec::new());
    let mut rest = lexemes.into_iter().peekable();
    while let Some(lexeme) = rest.next() {
        let end = match &lexeme.token {
            Token::Foreign(text) if text == "(*" => ")",
            Token::Foreign(text) if text == "/*" => "/",
            Token::Foreign(text) if text == "//" => {
                places.push(lexeme.place);
                while rest.next_if(|next| next.place.line == lexeme.place.line && next.token != Token::End).is_some() {}
                continue;
            }
            _ => {
                kept.push(lexeme);
                continue;
            }
        };
        places.push(lexeme.place);
        let mut star = false;
        while let Some(next) = rest.next_if(|next| next.token != Token::End) {
            if star && next.token.to_string() == format!("`{end}`") {
                break;
            }
            star = next.token.to_string() == "`*`";
        }
    }
    (kept, places)
}
