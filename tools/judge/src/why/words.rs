//! Messages and recipes in the words of the finding.

use super::places::Places;
use notation::tree::{Kind, Tree};
use second_checker::messages::{Message, Origin, Shape};

/// A message or a recipe of more nodes than this is not told below so many nodes on a path.
const WHOLE: usize = 40;
const DEEPEST: usize = 4;

pub struct Words<'f> {
    /// The words of public names, with their numbers.
    pub names: &'f [(String, usize)],
    pub places: &'f Places<'f>,
    /// The words of private names on the path so far, with their numbers.
    seen: Vec<(String, u32)>,
}

impl<'f> Words<'f> {
    pub fn new(names: &'f [(String, usize)], places: &'f Places<'f>) -> Words<'f> {
        Words { names, places, seen: Vec::new() }
    }

    /// Private names are numbered as they come along a path: where one is left, those that came on it are forgotten.
    pub fn path(&self) -> usize {
        self.seen.len()
    }

    pub fn leave(&mut self, path: usize) {
        self.seen.truncate(path);
    }

    pub fn message(&mut self, message: &Message) -> String {
        let most = if message.size() > WHOLE { DEEPEST } else { WHOLE };
        let text = self.below(message, most);
        if message.size() > WHOLE {
            format!("{text} ({} nodes; .. is a part left out)", message.size())
        } else {
            text
        }
    }

    fn below(&mut self, message: &Message, most: usize) -> String {
        let (word, parts) = match message.shape() {
            Shape::Public(name) => return self.name(usize::from(*name)),
            Shape::Private(name, origin) => return self.private(*name, origin),
            _ if most == 0 => return "..".to_string(),
            Shape::Pair(left, right) => ("pair", vec![left, right]),
            Shape::Fst(part) => ("fst", vec![part]),
            Shape::Snd(part) => ("snd", vec![part]),
            Shape::Enc(left, right) => ("enc", vec![left, right]),
            Shape::Dec(left, right) => ("dec", vec![left, right]),
            Shape::Mac(left, right) => ("mac", vec![left, right]),
        };
        let parts: Vec<String> = parts.into_iter().map(|part| self.below(part, most - 1)).collect();
        format!("{word}({})", parts.join(", "))
    }

    /// A public name.
    fn name(&self, number: usize) -> String {
        let word = self.names.iter().find(|(_, known)| *known == number).map(|(word, _)| word.clone());
        word.unwrap_or(number.to_string())
    }

    /// A private name: the word that `new` binds it to, and which one it is of those on the path.
    fn private(&mut self, number: u32, origin: &Origin) -> String {
        let word = self.places.word(origin.0).unwrap_or("n").to_string();
        let alike: Vec<u32> = self.seen.iter().filter(|(seen, _)| *seen == word).map(|(_, number)| *number).collect();
        let which = alike.iter().position(|seen| *seen == number).unwrap_or(alike.len());
        if which == alike.len() {
            self.seen.push((word.clone(), number));
        }
        format!("{word}#{}", which + 1)
    }

    /// A recipe, with the words of the aliases around it.
    pub fn recipe(&self, term: &Tree, aliases: &[String]) -> String {
        self.recipe_below(term, aliases, if nodes(term) > WHOLE { DEEPEST } else { WHOLE })
    }

    fn recipe_below(&self, term: &Tree, aliases: &[String], most: usize) -> String {
        let word = match (term.kind, term.number) {
            (Kind::Name, Some(number)) => return self.name(number),
            (_, Some(index)) => return aliases.get(index).cloned().unwrap_or("?".to_string()),
            _ if most == 0 => return "..".to_string(),
            (Kind::Pair, _) => "pair",
            (Kind::Fst, _) => "fst",
            (Kind::Snd, _) => "snd",
            (Kind::Enc, _) => "enc",
            (Kind::Dec, _) => "dec",
            _ => "mac",
        };
        let parts: Vec<String> = term.parts.iter().map(|part| self.recipe_below(part, aliases, most - 1)).collect();
        format!("{word}({})", parts.join(", "))
    }
}

fn nodes(term: &Tree) -> usize {
    1 + term.parts.iter().map(nodes).sum::<usize>()
}
