//! What can be made of the aliases of a state: recipes with their messages, taken apart as far as they go.

use super::terms::{dec, depth, enc, fst, lookalike, name, pair, snd, term};
use crate::random::Random;
use second_checker::messages::{normal_form, Message, Shape};
use second_checker::syntax::Term;

/// Recipes with their messages.
pub struct Knowledge {
    known: Vec<(Term, Message)>,
    aliases: usize,
}

impl Knowledge {
    /// The public names in use, the aliases, and their parts.
    pub fn new(aliases: &[Message]) -> Knowledge {
        let mut knowledge = Knowledge { known: Vec::new(), aliases: aliases.len() };
        for public in 0..3 {
            knowledge.known.push((Term::Name(public), Message::public(public)));
        }
        for alias in 0..aliases.len() {
            knowledge.add(Term::Variable(alias), aliases);
        }
        let mut next = 3;
        while next < knowledge.known.len() && knowledge.known.len() < 60 {
            knowledge.take_apart(next, aliases);
            next += 1;
        }
        knowledge
    }

    fn add(&mut self, recipe: Term, aliases: &[Message]) {
        if depth(&recipe) > 6 {
            return;
        }
        if let Ok(message) = normal_form(&recipe, aliases) {
            self.known.push((recipe, message));
        }
    }

    fn take_apart(&mut self, index: usize, aliases: &[Message]) {
        let (recipe, message) = self.known[index].clone();
        match message.shape() {
            Shape::Pair(..) => {
                self.add(fst(recipe.clone()), aliases);
                self.add(snd(recipe), aliases);
            }
            Shape::Enc(_, key) => {
                if let Some(key) = self.find(key) {
                    self.add(dec(recipe, key), aliases);
                }
            }
            Shape::Dec(_, key) => {
                if let Some(key) = self.find(key) {
                    self.add(enc(recipe, key), aliases);
                }
            }
            _ => {}
        }
    }

    fn find(&self, message: &Message) -> Option<Term> {
        self.known.iter().rev().find(|(_, known)| known == message).map(|(recipe, _)| recipe.clone())
    }

    /// A recipe for a message, if it is known or made of known parts.
    pub fn recipe(&self, message: &Message) -> Option<Term> {
        let parts = |make: fn(Term, Term) -> Term, m: &Message, n: &Message| {
            let made = make(self.recipe(m)?, self.recipe(n)?);
            (depth(&made) <= 8).then_some(made)
        };
        self.find(message).or_else(|| match message.shape() {
            Shape::Public(public) => Some(Term::Name(*public)),
            Shape::Pair(m, n) => parts(pair, m, n),
            Shape::Enc(m, k) => parts(enc, m, k),
            Shape::Dec(m, k) => parts(dec, m, k),
            _ => None,
        })
    }

    /// Any recipe: a known one, or one made at random.
    pub fn any(&self, random: &mut Random) -> Term {
        match random.weighted(&[6, 2, 1, 1]) {
            0 => random.pick(&self.known).0.clone(),
            1 => term(random, self.aliases, 4),
            2 => name(random),
            _ => pair(random.pick(&self.known).0.clone(), random.pick(&self.known).0.clone()),
        }
    }

    /// Two recipes, often of equal messages.
    pub fn two(&self, random: &mut Random) -> (Term, Term) {
        let (recipe, message) = random.pick(&self.known).clone();
        let same: Vec<&Term> =
            self.known.iter().filter(|(other, m)| *m == message && *other != recipe).map(|(other, _)| other).collect();
        if !same.is_empty() && random.chance(60) {
            return (recipe, (*random.pick(&same)).clone());
        }
        if depth(&recipe) <= 4 && random.chance(30) {
            return (self.lookalike(random, &recipe), recipe);
        }
        (recipe, self.any(random))
    }

    fn lookalike(&self, random: &mut Random, recipe: &Term) -> Term {
        let mut parts = [0; 3].map(|_| random.pick(&self.known).0.clone());
        if random.chance(50) {
            parts[2] = parts[1].clone();
        }
        lookalike(random, recipe.clone(), parts)
    }
}
