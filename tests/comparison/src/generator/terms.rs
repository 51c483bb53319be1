//! Random terms, and terms whose normal form has a given number of nodes.

use crate::random::Random;
use second_checker::syntax::Term;

pub type Binary = fn(Box<Term>, Box<Term>) -> Term;

pub fn pair(m: Term, n: Term) -> Term {
    Term::Pair(Box::new(m), Box::new(n))
}

pub fn fst(m: Term) -> Term {
    Term::Fst(Box::new(m))
}

pub fn snd(m: Term) -> Term {
    Term::Snd(Box::new(m))
}

pub fn enc(m: Term, k: Term) -> Term {
    Term::Enc(Box::new(m), Box::new(k))
}

pub fn dec(m: Term, k: Term) -> Term {
    Term::Dec(Box::new(m), Box::new(k))
}

pub fn mac(m: Term, k: Term) -> Term {
    Term::Mac(Box::new(m), Box::new(k))
}

/// The number of nodes on a term's longest path.
pub fn depth(term: &Term) -> usize {
    match term {
        Term::Name(_) | Term::Variable(_) => 1,
        Term::Fst(m) | Term::Snd(m) => 1 + depth(m),
        Term::Pair(m, n) | Term::Enc(m, n) | Term::Dec(m, n) | Term::Mac(m, n) => 1 + depth(m).max(depth(n)),
    }
}

/// A public name, mostly one of a few, now and then any.
pub fn name(random: &mut Random) -> Term {
    if random.chance(96) {
        Term::Name(random.below(3) as u16)
    } else {
        Term::Name(*random.pick(&[3, 127, 128, 255, 256, 384, 16_383]))
    }
}

/// A name or a variable, mostly a late one.
pub fn leaf(random: &mut Random, in_scope: usize) -> Term {
    if in_scope == 0 || random.chance(35) {
        return name(random);
    }
    if random.chance(50) {
        return Term::Variable(in_scope - 1);
    }
    Term::Variable(random.below(in_scope))
}

/// A term of at most `most` nodes on a path.
pub fn term(random: &mut Random, in_scope: usize, most: usize) -> Term {
    if most <= 1 || random.chance(45) {
        return leaf(random, in_scope);
    }
    let part = term(random, in_scope, most - 1);
    match random.weighted(&[5, 4, 4, 4, 4, 2, 3]) {
        0 => pair(part, term(random, in_scope, most - 1)),
        1 => fst(part),
        2 => snd(part),
        3 => enc(part, leaf(random, in_scope)),
        4 => dec(part, leaf(random, in_scope)),
        5 => mac(part, leaf(random, in_scope)),
        _ => redex(random, part, in_scope),
    }
}

/// A term that an equation brings back to `m`, or would with another key.
fn redex(random: &mut Random, m: Term, in_scope: usize) -> Term {
    let mut parts = [leaf(random, in_scope), leaf(random, in_scope), leaf(random, in_scope)];
    if random.chance(75) {
        parts[2] = parts[1].clone();
    }
    if depth(&m) > 4 {
        return m;
    }
    lookalike(random, m, parts)
}

/// A term that an equation brings back to `m`, or that looks as if one did.
pub fn lookalike(random: &mut Random, m: Term, [other, key, again]: [Term; 3]) -> Term {
    match random.below(7) {
        0 => fst(pair(m, other)),
        1 => snd(pair(other, m)),
        2 | 3 => dec(enc(m, key), again),
        4 | 5 => enc(dec(m, key), again),
        _ => pair(fst(m.clone()), snd(m)),
    }
}

/// A term in normal form of exactly `nodes` nodes, 1 to 255, without variables. It has at most 8 nodes on a path.
pub fn sized(random: &mut Random, nodes: usize) -> Term {
    sized_within(random, nodes, 8)
}

/// The same with at most `most` nodes on a path, where so many fit.
pub fn sized_within(random: &mut Random, nodes: usize, most: usize) -> Term {
    let full = |most: usize| (1 << most) - 1;
    match nodes {
        1 => name(random),
        2 => fst(name(random)),
        _ => {
            let rest = nodes - 1;
            let least = 1.max(rest.saturating_sub(full(most - 1)));
            let left = random.between(least, (rest - 1).min(full(most - 1)));
            let m = Box::new(sized_within(random, left, most - 1));
            let n = Box::new(sized_within(random, rest - left, most - 1));
            let binary: &Binary = random.pick(&[Term::Pair as Binary, Term::Enc, Term::Dec, Term::Mac]);
            keep_normal(binary(m, n))
        }
    }
}

/// Turns a root that an equation could apply to into a pair.
fn keep_normal(term: Term) -> Term {
    match term {
        Term::Enc(m, n) if matches!(*m, Term::Dec(..)) => Term::Pair(m, n),
        Term::Dec(m, n) if matches!(*m, Term::Enc(..)) => Term::Pair(m, n),
        term => term,
    }
}

/// A term that is written with exactly `bytes` bytes, 2 to 300.
pub fn written_in(bytes: usize) -> Term {
    match bytes {
        0..=2 => Term::Name(0),
        3 => fst(Term::Name(1)),
        4 => fst(fst(Term::Name(2))),
        _ => {
            let left = (bytes - 1) / 2;
            mac(written_in(left), written_in(bytes - 1 - left))
        }
    }
}
