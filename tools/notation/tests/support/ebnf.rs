//! A grammar in EBNF, and which token sequences it derives. All symbols of the EBNF have blanks between them.

use notation::lexer::{Token, RESERVED};
use std::collections::{BTreeSet, HashMap};

/// The right side of a rule.
enum Side {
    Quoted(String),
    Rule(String),
    Sequence(Vec<Side>),
    Choice(Vec<Side>),
    Optional(Box<Side>),
    Repeated(Box<Side>),
}

/// The symbols of EBNF that are not yet read; quotation marks are part of what they enclose.
struct Symbols(Vec<String>);

impl Symbols {
    fn is(&self, symbol: &str) -> bool {
        self.0.last().is_some_and(|next| next == symbol)
    }

    fn next(&mut self) -> String {
        self.0.pop().expect("the grammar goes on")
    }

    fn choice(&mut self) -> Side {
        let mut sides = vec![self.sequence()];
        while self.is("|") {
            self.next();
            sides.push(self.sequence());
        }
        Side::Choice(sides)
    }

    fn sequence(&mut self) -> Side {
        let mut sides = Vec::new();
        while !["|", ";", ")", "]", "}"].iter().any(|symbol| self.is(symbol)) {
            sides.push(self.part());
        }
        Side::Sequence(sides)
    }

    fn part(&mut self) -> Side {
        let symbol = self.next();
        let close = match symbol.as_str() {
            "(" => ")",
            "[" => "]",
            "{" => "}",
            _ if symbol.starts_with('"') => return Side::Quoted(symbol.trim_matches('"').to_string()),
            _ => return Side::Rule(symbol),
        };
        let inside = self.choice();
        assert_eq!(self.next(), close);
        match close {
            "]" => Side::Optional(Box::new(inside)),
            "}" => Side::Repeated(Box::new(inside)),
            _ => inside,
        }
    }
}

pub struct Grammar(HashMap<String, Side>);

impl Grammar {
    pub fn new(text: &str) -> Grammar {
        let mut symbols: Vec<String> = text.split_whitespace().map(String::from).collect();
        symbols.reverse();
        let (mut symbols, mut rules) = (Symbols(symbols), HashMap::new());
        while !symbols.0.is_empty() {
            let rule = symbols.next();
            assert_eq!(symbols.next(), "=");
            rules.insert(rule, symbols.choice());
            assert_eq!(symbols.next(), ";");
        }
        Grammar(rules)
    }

    /// Whether the tokens are a finding by the grammar.
    pub fn derives(&self, tokens: &[Token]) -> bool {
        self.rule("finding", tokens, 0).contains(&tokens.len())
    }

    /// Where what is derived from a rule can end, if it starts at `at`.
    fn rule(&self, rule: &str, tokens: &[Token], at: usize) -> BTreeSet<usize> {
        let is_capital = |word: &str| word.starts_with(|c: char| c.is_ascii_uppercase());
        let fits = match (rule, tokens.get(at)) {
            ("word", Some(Token::Word(word))) => !is_capital(word) && !RESERVED.contains(&word.as_str()),
            ("Word", Some(Token::Word(word))) => is_capital(word),
            ("number", token) => matches!(token, Some(Token::Number(_))),
            ("word" | "Word", _) => false,
            _ => return self.ends(&self.0[rule], tokens, at),
        };
        fits.then_some(at + 1).into_iter().collect()
    }

    fn ends(&self, side: &Side, tokens: &[Token], at: usize) -> BTreeSet<usize> {
        match side {
            Side::Quoted(text) => {
                let fits = tokens.get(at).is_some_and(|token| token.to_string() == format!("`{text}`"));
                fits.then_some(at + 1).into_iter().collect()
            }
            Side::Rule(rule) => self.rule(rule, tokens, at),
            Side::Sequence(sides) => sides.iter().fold(BTreeSet::from([at]), |starts, side| {
                starts.into_iter().flat_map(|start| self.ends(side, tokens, start)).collect()
            }),
            Side::Choice(sides) => sides.iter().flat_map(|side| self.ends(side, tokens, at)).collect(),
            Side::Optional(inside) => self.ends(inside, tokens, at).into_iter().chain([at]).collect(),
            Side::Repeated(inside) => {
                let mut all = BTreeSet::from([at]);
                for end in self.ends(inside, tokens, at) {
                    all.extend(self.ends(side, tokens, end));
                }
                all
            }
        }
    }
}
