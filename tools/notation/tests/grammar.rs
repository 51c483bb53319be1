//! The grammar in `docs/NOTATION.md` is that of the parser: it is taken as it is printed there, and compared.

mod support;

use notation::fault::{Cause, Fault};
use notation::lexer::{lexemes, Token, RESERVED, SYMBOLS};
use notation::print;
use std::collections::BTreeSet;
use std::fs;
use support::ebnf::Grammar;
use support::{blocks_of, folders, Random};

fn grammar() -> Grammar {
    Grammar::new(&blocks_of("ebnf")[0])
}

/// The tokens of a text, without its end.
fn tokens(text: &str) -> Vec<Token> {
    let mut tokens: Vec<Token> = lexemes(text).into_iter().map(|lexeme| lexeme.token).collect();
    tokens.pop();
    tokens
}

fn text(tokens: &[Token]) -> String {
    tokens.iter().map(|token| token.to_string().replace('`', "")).collect::<Vec<_>>().join(" ")
}

/// Every construct, in short findings.
const SHORT: [&str; 5] = [
    "names c = 0, d = 1, e = d A = nil first A B = A second B | A C = true D = c = d formula C or D answer 1 2 3 4",
    "first if 0 = 1 then nil else nil second let x = 1 in nil formula [tau] true and not 1 != 2",
    "first new x, y. out(x, y). nil second in(0, x). nil formula [out 0 x] x = 1",
    "first repl (nil) second out(fst(0), snd(1)) formula <in 0 1> (<tau> true)",
    "first out(pair(0, 1), mac(2, 3)) second nil formula <out 0 x> enc(x, 1) = dec(2, 3)",
];

/// Those, and the findings of the examples and of the document.
fn findings() -> Vec<Vec<Token>> {
    let texts = folders().into_iter().map(|folder| fs::read_to_string(folder.join("finding.txt")).expect("a finding"));
    texts.chain(blocks_of("finding")).chain(SHORT.map(String::from)).map(|text| tokens(&text)).collect()
}

/// One or two tokens are left out, or one is put in or replaced, by one of the finding or any that the grammar has.
fn change(tokens: &mut Vec<Token>, random: &mut Random) {
    let (at, from) = (random.below(tokens.len()), random.below(tokens.len()));
    let other = match random.below(4) {
        0 => Token::Symbol(SYMBOLS[random.below(SYMBOLS.len())]),
        1 => Token::Word(RESERVED[random.below(RESERVED.len())].to_string()),
        _ => tokens[from].clone(),
    };
    match random.below(3) {
        0 => drop(tokens.drain(at..tokens.len().min(at + 1 + random.below(2)))),
        1 => tokens.insert(at, other),
        _ => tokens[at] = other,
    }
}

/// Whether a text has a fault of syntax, or none; otherwise nothing is known. An abbreviation may be used as a formula
/// and be none: that is no matter of the grammar.
fn has_syntax_fault(text: &str) -> Option<bool> {
    let reading = notation::reading(text);
    let of_syntax = |fault: &Fault| fault.cause == Cause::Syntax && fault.within.is_none();
    let known = reading.faults.iter().all(of_syntax);
    known.then_some(!reading.faults.is_empty())
}

#[test]
fn it_has_all_reserved_words_and_symbols() {
    let grammar = blocks_of("ebnf")[0].clone();
    let quoted = grammar.split_whitespace().filter(|symbol| symbol.starts_with('"'));
    let quoted: BTreeSet<&str> = quoted.map(|symbol| symbol.trim_matches('"')).collect();
    assert_eq!(quoted, RESERVED.into_iter().chain(SYMBOLS).collect());
}

#[test]
fn it_derives_what_is_read() {
    let (grammar, mut random) = (grammar(), Random(5));
    let mut small = || print::finding(&random.process(0, 6), &random.process(0, 6), &random.formula(0, 6));
    let random = (0..300).map(|_| tokens(&small()));
    for finding in findings().into_iter().chain(random) {
        assert_eq!(has_syntax_fault(&text(&finding)), Some(false), "{}", text(&finding));
        assert!(grammar.derives(&finding), "{}", text(&finding));
    }
}

/// Short findings with a few tokens changed are derived just where the parser finds no fault of syntax.
#[test]
fn it_derives_nothing_else() {
    let (grammar, mut random) = (grammar(), Random(6));
    let (mut derived, mut other) = (0, 0);
    for round in 0..40_000 {
        let mut changed = tokens(SHORT[round % SHORT.len()]);
        (0..1 + random.below(2)).for_each(|_| change(&mut changed, &mut random));
        let Some(fault) = has_syntax_fault(&text(&changed)) else { continue };
        assert_eq!(grammar.derives(&changed), !fault, "{}", text(&changed));
        *if fault { &mut other } else { &mut derived } += 1;
    }
    assert!(derived > 500 && other > 500, "{derived} {other}");
}
