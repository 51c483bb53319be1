//! What is wrong with a slice that is refused: the rule in words, and the place in `finding.txt`.

use library::Answer;
use notation::decoding::{self, Refusal};
use notation::folder::Loaded;
use notation::{rules, Finding};

/// The slices, by what they hold.
pub fn slice(answer: Answer) -> &'static str {
    match answer.slice {
        1 => "the first model",
        2 => "the second model",
        _ => "the formula",
    }
}

/// The rule that a slice breaks, in words, and where in the text that is.
pub fn told(loaded: &Loaded, answer: Answer) -> String {
    let rule = in_words(&loaded.slices, answer);
    match loaded.text.as_ref().and_then(|text| place(text, answer)) {
        Some(place) => format!("{rule}; in finding.txt that is at {place}"),
        None => rule,
    }
}

/// The rule that a slice breaks; of the limits on nesting, the one that is met.
pub fn in_words(slices: &[Vec<u8>; 3], answer: Answer) -> String {
    let refusal = slices.get(index(answer)).and_then(|bytes| refusal(bytes, answer));
    refusal.map_or(rules::in_words(answer.result).to_string(), |refusal| refusal.in_words())
}

fn index(answer: Answer) -> usize {
    answer.slice.saturating_sub(1) as usize
}

/// The refusal of the notation's own reader, if it is that of the answer.
fn refusal(bytes: &[u8], answer: Answer) -> Option<Refusal> {
    let decoded = match answer.slice {
        3 => decoding::formula(bytes).map(|_| ()),
        _ => decoding::process(bytes).map(|_| ()),
    };
    decoded.err().filter(|refusal| (refusal.rule, refusal.place) == (answer.result, answer.place as usize))
}

/// Where the byte that breaks a rule comes from.
pub fn place(text: &Finding, answer: Answer) -> Option<String> {
    let node = text.slices.get(index(answer))?.node_at(answer.place as usize)?;
    match &node.within {
        None => Some(node.place.to_string()),
        Some(used) => Some(format!("{} (in `{}`, used at {})", node.place, used.word, used.place)),
    }
}
