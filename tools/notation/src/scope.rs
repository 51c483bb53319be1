//! What words stand for: public names, what is bound around a place, and abbreviations.

use crate::fault::Place;
use crate::lexer::RESERVED;
use std::collections::{BTreeMap, HashMap};

#[derive(Default)]
pub struct Scope {
    names: Vec<Name>,
    /// Where names and abbreviations are in their lists, by their words; and the first name of each number.
    names_by_word: HashMap<String, usize>,
    names_by_number: HashMap<usize, usize>,
    abbreviations_by_word: HashMap<String, usize>,
    bound: Vec<Bound>,
    abbreviations: Vec<Abbreviation>,
    /// How many of the abbreviations can be used: in the text of one, only those before it.
    visible: usize,
    /// By the place of each binder whose scope has ended: its word, and whether that was used in any expansion.
    ended: BTreeMap<Place, (String, bool)>,
}

#[derive(Clone, Debug)]
pub struct Name {
    pub word: String,
    pub number: usize,
    pub place: Place,
    used: bool,
}

struct Bound {
    word: String,
    place: Place,
    used: bool,
}

/// The tokens from `start` up to `end`.
#[derive(Clone)]
pub struct Abbreviation {
    pub word: String,
    pub place: Place,
    pub start: usize,
    pub end: usize,
    used: bool,
}

/// What a word stands for.
#[derive(Clone, Copy, Debug, PartialEq, Eq)]
pub enum Meaning {
    Name(usize),
    Variable(usize),
}

pub fn is_abbreviation(word: &str) -> bool {
    word.starts_with(|c: char| c.is_ascii_uppercase())
}

impl Scope {
    pub fn name(&mut self, word: &str, number: usize, place: Place) -> Result<(), String> {
        self.free(word)?;
        self.names_by_word.insert(word.to_string(), self.names.len());
        self.names_by_number.entry(number).or_insert(self.names.len());
        self.names.push(Name { word: word.to_string(), number, place, used: false });
        Ok(())
    }

    /// The word of the public name with this number, if it has one.
    pub fn word_of(&self, number: usize) -> Option<&str> {
        self.names_by_number.get(&number).map(|index| self.names[*index].word.as_str())
    }

    pub fn names(&self) -> &[Name] {
        &self.names
    }

    /// A lone `_` binds what needs no word: it may stand any number of times, and for nothing that can be used.
    pub fn bind(&mut self, word: &str, place: Place) -> Result<(), String> {
        let free = if word == "_" { Ok(()) } else { self.free(word) };
        self.bound.push(Bound { word: word.to_string(), place, used: false });
        free
    }

    /// Ends the scope of the word bound last.
    pub fn unbind(&mut self) {
        if let Some(bound) = self.bound.pop() {
            let entry = self.ended.entry(bound.place).or_insert((bound.word, false));
            entry.1 |= bound.used;
        }
    }

    /// Ends all scopes that a fault has left open.
    pub fn unbind_all(&mut self) {
        self.bound.clear();
        self.visible = self.abbreviations.len();
    }

    /// What a word stands for; it then counts as used.
    pub fn meaning(&mut self, word: &str) -> Option<Meaning> {
        if let Some(index) = self.names_by_word.get(word) {
            self.names[*index].used = true;
            return Some(Meaning::Name(self.names[*index].number));
        }
        let index = self.bound.iter().position(|bound| bound.word == word && word != "_")?;
        self.bound[index].used = true;
        Some(Meaning::Variable(index))
    }

    pub fn knows(&self, word: &str) -> bool {
        self.names_by_word.contains_key(word) || self.bound.iter().any(|bound| bound.word == word)
    }

    pub fn abbreviate(&mut self, word: &str, place: Place, start: usize, end: usize) -> Result<(), String> {
        if self.abbreviations_by_word.contains_key(word) {
            return Err(format!("`{word}` is an abbreviation already"));
        }
        self.abbreviations_by_word.insert(word.to_string(), self.abbreviations.len());
        self.abbreviations.push(Abbreviation { word: word.to_string(), place, start, end, used: false });
        self.visible = self.abbreviations.len();
        Ok(())
    }

    /// The abbreviation `word` with its number, if it can be used here; it then counts as used.
    pub fn abbreviation(&mut self, word: &str) -> Option<(usize, Abbreviation)> {
        let index = *self.abbreviations_by_word.get(word).filter(|index| **index < self.visible)?;
        self.abbreviations[index].used = true;
        Some((index, self.abbreviations[index].clone()))
    }

    /// Lets only the first `count` abbreviations be used, and gives how many could be before.
    pub fn show(&mut self, count: usize) -> usize {
        std::mem::replace(&mut self.visible, count)
    }

    /// The abbreviations that are not used, each with its number.
    pub fn unused_abbreviations(&self) -> Vec<(usize, Abbreviation)> {
        let unused = self.abbreviations.iter().cloned().enumerate();
        unused.filter(|(_, known)| !known.used).collect()
    }

    /// What is not used, and where it stands. A word that starts with `_` need not be.
    pub fn unused(&self) -> Vec<(Place, String)> {
        let names = self.names.iter().filter(|name| !name.used).map(|name| (name.place, "public name", &name.word));
        let shorts = self.abbreviations.iter().filter(|known| !known.used);
        let shorts = shorts.map(|known| (known.place, "abbreviation", &known.word));
        let bound = self.ended.iter().filter(|(_, (_, used))| !used);
        let bound = bound.map(|(place, (word, _))| (*place, "word", word));
        let unused = names.chain(shorts).chain(bound).filter(|(_, _, word)| !word.starts_with('_'));
        unused.map(|(place, what, word)| (place, format!("the {what} `{word}` is not used"))).collect()
    }

    fn free(&self, word: &str) -> Result<(), String> {
        if word == "_" {
            Err("`_` binds what is not used, and is no public name".to_string())
        } else if RESERVED.contains(&word) {
            Err(format!("`{word}` is a reserved word"))
        } else if is_abbreviation(word) {
            Err(format!("`{word}` starts with a capital letter, as abbreviations do"))
        } else if self.knows(word) {
            Err(format!("`{word}` stands for something here already"))
        } else {
            Ok(())
        }
    }
}
