//! A model or a formula as bytes (document 01, "Bytes"), and where each of its nodes comes from.

use crate::fault::{Place, Within};
use crate::tree::{Sort, Tree};

#[derive(Clone, Debug, Default, PartialEq, Eq)]
pub struct Slice {
    pub bytes: Vec<u8>,
    /// In prefix order, as in the bytes.
    pub nodes: Vec<Node>,
}

#[derive(Clone, Debug, PartialEq, Eq)]
pub struct Node {
    pub sort: Sort,
    /// The offset of its kind.
    pub offset: usize,
    pub place: Place,
    pub within: Within,
    /// The word that it binds.
    pub word: Option<String>,
}

impl Slice {
    pub fn of(tree: &Tree) -> Slice {
        let mut slice = Slice::default();
        slice.add(tree);
        slice
    }

    fn add(&mut self, tree: &Tree) {
        self.nodes.push(Node {
            sort: tree.kind.sort(),
            offset: self.bytes.len(),
            place: tree.place,
            within: tree.within.clone(),
            word: tree.word.clone(),
        });
        self.bytes.push(tree.kind.number());
        self.bytes.extend(tree.number.into_iter().flat_map(number));
        tree.parts.iter().for_each(|part| self.add(part));
    }

    /// The node that the byte at an offset belongs to, if there is any.
    pub fn node_at(&self, offset: usize) -> Option<&Node> {
        self.nodes.iter().rev().find(|node| node.offset <= offset)
    }
}

/// Groups of seven bits, lowest first, the top bit set on every byte but the last: one or two bytes up to 16,383.
pub fn number(value: usize) -> Vec<u8> {
    let mut bytes = Vec::new();
    let mut rest = value;
    while rest > 127 {
        bytes.push(128 | (rest % 128) as u8);
        rest /= 128;
    }
    bytes.push(rest as u8);
    bytes
}
