//! Terms: `variable` is the letter for what term kind 1 stands for.

use crate::syntax::Term;

/// A term of a model.
pub fn term(term: &Term) -> String {
    with(term, 'v')
}

/// A recipe of a formula.
pub fn recipe(term: &Term) -> String {
    with(term, 'a')
}

fn with(term: &Term, variable: char) -> String {
    let unary = |word: &str, part: &Term| format!("{word}({})", with(part, variable));
    let binary =
        |word: &str, left: &Term, right: &Term| format!("{word}({}, {})", with(left, variable), with(right, variable));
    match term {
        Term::Name(name) => name.to_string(),
        Term::Variable(index) => format!("{variable}{index}"),
        Term::Pair(left, right) => binary("pair", left, right),
        Term::Fst(pair) => unary("fst", pair),
        Term::Snd(pair) => unary("snd", pair),
        Term::Enc(message, key) => binary("enc", message, key),
        Term::Dec(message, key) => binary("dec", message, key),
        Term::Mac(message, key) => binary("mac", message, key),
    }
}
