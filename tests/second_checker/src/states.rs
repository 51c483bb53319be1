//! States: settled threads, aliases and private names, and the limits on them (document 01, "Steps" and "Judging and
//! its count").

use crate::messages::{normal_form, Message, Origin, TooLarge};
use crate::syntax::Process;
use std::rc::Rc;

pub const THREADS: usize = 32;
pub const PRIVATE_NAMES: u32 = 128;
pub const BOUND_NODES: usize = 1024;

/// A settled thread with the messages of the variables in its scope. What it offers is worked once, here: the scope
/// never changes, so the offer is the same in every state the thread stands in.
#[derive(Debug, PartialEq, Eq)]
pub enum Thread<'m> {
    Output { channel: Message, message: Message, then: &'m Process, scope: Box<[Message]> },
    Input { channel: Message, then: &'m Process, scope: Box<[Message]> },
    Repl { body: &'m Process, scope: Box<[Message]> },
}

impl Thread<'_> {
    fn scope(&self) -> &[Message] {
        match self {
            Thread::Output { scope, .. } | Thread::Input { scope, .. } | Thread::Repl { scope, .. } => scope,
        }
    }
}

/// Threads in their order, shared between the states they stand in.
pub type Threads<'m> = Vec<Rc<Thread<'m>>>;

#[derive(Clone, Debug, PartialEq, Eq)]
pub struct State<'m> {
    pub threads: Threads<'m>,
    pub aliases: Vec<Message>,
    /// The number of private names made; the next one has this number.
    pub names: u32,
}

impl<'m> State<'m> {
    /// The settled model, without aliases. An error is a start state over the limit on normal forms.
    pub fn start(model: &'m Process) -> Result<State<'m>, TooLarge> {
        let mut names = 0;
        let threads = settle(model, Vec::new(), &mut names)?;
        Ok(State { threads, aliases: Vec::new(), names })
    }

    /// Whether the state is over the limit on threads, private names or nodes. That on normal forms is met earlier,
    /// while the state is settled. Copies opened for offers are no part of the state, so only the limit on normal forms
    /// bounds them.
    pub fn is_over_limit(&self) -> bool {
        self.threads.len() > THREADS || self.names > PRIVATE_NAMES || self.nodes() > BOUND_NODES
    }

    /// The nodes of each thread's variables and of the aliases. A thread's variables are all those in its scope, used
    /// or not; a message in two scopes counts in both.
    pub fn nodes(&self) -> usize {
        let bound = self.threads.iter().flat_map(|thread| thread.scope());
        bound.chain(&self.aliases).map(Message::size).sum()
    }
}

/// The threads a process settles to. `names` is moved past the private names it takes.
pub fn settle<'m>(process: &'m Process, scope: Vec<Message>, names: &mut u32) -> Result<Threads<'m>, TooLarge> {
    settled(process, scope, names, false)
}

/// One fresh settled copy of a repl thread's body. `names` is moved past the private names it takes.
///
/// A copy was tried when the thread was settled, and which private names it takes does not change the sizes that arise,
/// so this one is under the limit on normal forms too.
pub fn open<'m>(body: &'m Process, scope: &[Message], names: &mut u32) -> Threads<'m> {
    settled(body, scope.to_vec(), names, true).expect("a copy that was tried opens again")
}

fn settled<'m>(
    process: &'m Process,
    scope: Vec<Message>,
    names: &mut u32,
    tried: bool,
) -> Result<Threads<'m>, TooLarge> {
    let mut settling = Settling { scope, names: *names, threads: Vec::new(), tried };
    settling.settle(process)?;
    *names = settling.names;
    Ok(settling.threads)
}

struct Settling<'m> {
    scope: Vec<Message>,
    names: u32,
    threads: Threads<'m>,
    /// Whether the copies of repl threads have been tried before, with other private names.
    tried: bool,
}

impl<'m> Settling<'m> {
    /// What stays as a thread has its offers worked here.
    fn settle(&mut self, process: &'m Process) -> Result<(), TooLarge> {
        match process {
            Process::Nil => Ok(()),
            Process::New(then) => {
                let name = Message::private(self.names, Origin(&**then as *const Process as usize));
                self.names += 1;
                self.settle_with(name, then)
            }
            Process::Let { value, then } => {
                let value = normal_form(value, &self.scope)?;
                self.settle_with(value, then)
            }
            Process::If { left, right, then, otherwise } => {
                let equal = normal_form(left, &self.scope)? == normal_form(right, &self.scope)?;
                self.settle(if equal { then } else { otherwise })
            }
            Process::Par(left, right) => {
                self.settle(left)?;
                self.settle(right)
            }
            Process::Output { channel, message, then } => {
                let channel = normal_form(channel, &self.scope)?;
                let message = normal_form(message, &self.scope)?;
                self.stand(|scope| Thread::Output { channel, message, then, scope })
            }
            Process::Input { channel, then } => {
                let channel = normal_form(channel, &self.scope)?;
                self.stand(|scope| Thread::Input { channel, then, scope })
            }
            Process::Repl(body) => {
                self.try_copy(body)?;
                self.stand(|scope| Thread::Repl { body, scope })
            }
        }
    }

    /// Opens a copy to see what arises in it and in the copies of its own repl threads. No names are taken.
    fn try_copy(&self, body: &'m Process) -> Result<(), TooLarge> {
        if !self.tried {
            settle(body, self.scope.clone(), &mut self.names.clone())?;
        }
        Ok(())
    }

    /// Settles `then` with one more variable.
    fn settle_with(&mut self, message: Message, then: &'m Process) -> Result<(), TooLarge> {
        self.scope.push(message);
        self.settle(then)?;
        self.scope.pop();
        Ok(())
    }

    fn stand(&mut self, thread: impl FnOnce(Box<[Message]>) -> Thread<'m>) -> Result<(), TooLarge> {
        self.threads.push(Rc::new(thread(self.scope.clone().into_boxed_slice())));
        Ok(())
    }
}
