//! Messages in normal form, shared by reference, and the limit on their size (document 01, "Messages").

use crate::syntax::Term;
use std::rc::Rc;

/// The most nodes a normal form may have.
pub const NODES: usize = 255;

/// A normal form over the limit arose.
#[derive(Clone, Copy, Debug, PartialEq, Eq)]
pub struct TooLarge {
    /// The nodes of that normal form.
    pub nodes: usize,
    /// The address of the term that it is the normal form of.
    pub term: usize,
}

/// A message in normal form.
#[derive(Clone, Debug)]
pub struct Message(Rc<Node>);

#[derive(Debug)]
struct Node {
    size: usize,
    shape: Shape,
}

/// The outermost node of a message.
#[derive(Debug, PartialEq, Eq)]
pub enum Shape {
    Public(u16),
    Private(u32, Origin),
    Pair(Message, Message),
    Fst(Message),
    Snd(Message),
    Enc(Message, Message),
    Dec(Message, Message),
    Mac(Message, Message),
}

/// Where a private name was made: the address of the process that its `new` binds it in. Copies make different names at
/// one origin. Names are told apart by their numbers: where a name was made is no part of what it is, so any two origins
/// count as equal.
#[derive(Clone, Copy, Debug)]
pub struct Origin(pub usize);

impl PartialEq for Origin {
    fn eq(&self, _: &Origin) -> bool {
        true
    }
}

impl Eq for Origin {}

impl PartialEq for Message {
    fn eq(&self, other: &Message) -> bool {
        Rc::ptr_eq(&self.0, &other.0) || (self.0.size == other.0.size && self.0.shape == other.0.shape)
    }
}

impl Eq for Message {}

impl Message {
    pub fn public(name: u16) -> Message {
        Message(Rc::new(Node { size: 1, shape: Shape::Public(name) }))
    }

    pub fn private(name: u32, origin: Origin) -> Message {
        Message(Rc::new(Node { size: 1, shape: Shape::Private(name, origin) }))
    }

    /// The number of nodes.
    pub fn size(&self) -> usize {
        self.0.size
    }

    pub fn shape(&self) -> &Shape {
        &self.0.shape
    }

    /// A message no equation applies to at its root, or none where it is over the limit.
    fn node(shape: Shape) -> Option<Message> {
        let size = 1 + shape.parts_size();
        if size > NODES {
            return None;
        }
        Some(Message(Rc::new(Node { size, shape })))
    }
}

impl Shape {
    fn parts_size(&self) -> usize {
        match self {
            Shape::Public(_) | Shape::Private(..) => 0,
            Shape::Fst(m) | Shape::Snd(m) => m.size(),
            Shape::Pair(m, n) | Shape::Enc(m, n) | Shape::Dec(m, n) | Shape::Mac(m, n) => m.size() + n.size(),
        }
    }
}

/// The normal form of a term, given the messages of its variables or aliases. Every submessage's normal form is under
/// the limit too, though an equation may drop it from the whole.
pub fn normal_form(term: &Term, bound: &[Message]) -> Result<Message, TooLarge> {
    worked(term, bound).ok_or_else(|| too_large(term, bound))
}

/// The normal form, or none where one over the limit arises.
fn worked(term: &Term, bound: &[Message]) -> Option<Message> {
    let work = |part: &Term| worked(part, bound);
    match term {
        Term::Name(name) => Some(Message::public(*name)),
        Term::Variable(variable) => Some(bound[*variable].clone()),
        Term::Pair(m, n) => Message::node(Shape::Pair(work(m)?, work(n)?)),
        Term::Fst(m) => fst(work(m)?),
        Term::Snd(m) => snd(work(m)?),
        Term::Enc(m, k) => enc(work(m)?, work(k)?),
        Term::Dec(m, k) => dec(work(m)?, work(k)?),
        Term::Mac(m, k) => Message::node(Shape::Mac(work(m)?, work(k)?)),
    }
}

fn fst(message: Message) -> Option<Message> {
    match message.shape() {
        Shape::Pair(first, _) => Some(first.clone()),
        _ => Message::node(Shape::Fst(message)),
    }
}

fn snd(message: Message) -> Option<Message> {
    match message.shape() {
        Shape::Pair(_, second) => Some(second.clone()),
        _ => Message::node(Shape::Snd(message)),
    }
}

fn enc(message: Message, key: Message) -> Option<Message> {
    match message.shape() {
        Shape::Dec(plain, same) if *same == key => Some(plain.clone()),
        _ => Message::node(Shape::Enc(message, key)),
    }
}

fn dec(message: Message, key: Message) -> Option<Message> {
    match message.shape() {
        Shape::Enc(plain, same) if *same == key => Some(plain.clone()),
        _ => Message::node(Shape::Dec(message, key)),
    }
}

/// Where in a term a normal form over the limit arises first. The parts are worked once more, so that only a term that
/// is over the limit pays for this.
#[cold]
fn too_large(term: &Term, bound: &[Message]) -> TooLarge {
    let mut nodes = 1;
    for part in parts(term) {
        match worked(part, bound) {
            Some(message) => nodes += message.size(),
            None => return too_large(part, bound),
        }
    }
    TooLarge { nodes, term: term as *const Term as usize }
}

fn parts(term: &Term) -> Vec<&Term> {
    match term {
        Term::Name(_) | Term::Variable(_) => Vec::new(),
        Term::Fst(m) | Term::Snd(m) => vec![m],
        Term::Pair(m, n) | Term::Enc(m, n) | Term::Dec(m, n) | Term::Mac(m, n) => vec![m, n],
    }
}
