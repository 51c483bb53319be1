//! Offers of threads and of copies, and the steps made of them, in order (document 01, "Steps").

use crate::messages::{Message, TooLarge};
use crate::states::{open, settle, State, Thread, Threads};
use crate::syntax::Process;
use std::ops::ControlFlow;
use std::rc::Rc;

/// A copy put just before its repl thread, which stood at index `at`.
#[derive(Clone)]
struct Opening<'m> {
    at: usize,
    copy: Rc<Threads<'m>>,
}

/// The offer of one output or input thread. Indices are those of the list after `openings`.
#[derive(Clone)]
pub struct Offer<'m> {
    /// The thread that offers, in a copy or in the list itself.
    pub thread: Rc<Thread<'m>>,
    /// The index of that thread, or of the repl thread it is a copy of, in the list as it was.
    from: usize,
    /// The copies opened on the way, outermost first.
    openings: Vec<Opening<'m>>,
    acting: usize,
    /// The number of private names made after the openings.
    names: u32,
}

impl Offer<'_> {
    /// Whether a copy is opened for it.
    pub fn is_in_new_copy(&self) -> bool {
        !self.openings.is_empty()
    }
}

/// A silent step: the openings, then the acting threads' indices in the list so opened.
pub struct SilentStep<'m> {
    openings: Vec<Opening<'m>>,
    output: usize,
    input: usize,
    names: u32,
}

impl<'m> SilentStep<'m> {
    /// The threads that output and input in this step of a state. They are looked up each time: judging has no need of
    /// them.
    pub fn acting(&self, state: &State<'m>) -> (Rc<Thread<'m>>, Rc<Thread<'m>>) {
        let threads = opened(&state.threads, &self.openings);
        (threads[self.output].clone(), threads[self.input].clone())
    }
}

/// The output offers of a state on one channel, left to right.
pub fn outputs_on<'m>(state: &State<'m>, channel: &Message) -> Vec<Offer<'m>> {
    offers(
        &state.threads,
        0,
        state.names,
        &|thread| matches!(thread, Thread::Output { channel: c, .. } if c == channel),
    )
}

/// The input offers of a state on one channel, left to right.
pub fn inputs_on<'m>(state: &State<'m>, channel: &Message) -> Vec<Offer<'m>> {
    offers(&state.threads, 0, state.names, &|thread| matches!(thread, Thread::Input { channel: c, .. } if c == channel))
}

/// All offers of a state, left to right.
pub fn all_offers<'m>(state: &State<'m>) -> Vec<Offer<'m>> {
    offers(&state.threads, 0, state.names, &|_| true)
}

/// The wanted offers of a list whose first thread has index `first`, with `names` private names made before.
fn offers<'m>(threads: &Threads<'m>, first: usize, names: u32, wanted: &dyn Fn(&Thread) -> bool) -> Vec<Offer<'m>> {
    let mut found = Vec::new();
    for (from, thread) in threads.iter().enumerate() {
        let mut search = Search { wanted, from, openings: Vec::new(), found: &mut found };
        search.thread(thread, first + from, names);
    }
    found
}

/// A search for the offers of one thread of a list.
struct Search<'s, 'm> {
    wanted: &'s dyn Fn(&Thread) -> bool,
    from: usize,
    openings: Vec<Opening<'m>>,
    found: &'s mut Vec<Offer<'m>>,
}

impl<'m> Search<'_, 'm> {
    fn thread(&mut self, thread: &Rc<Thread<'m>>, at: usize, names: u32) {
        match &**thread {
            Thread::Repl { body, scope } => self.copy(body, scope, at, names),
            offering if (self.wanted)(offering) => self.found.push(Offer {
                thread: thread.clone(),
                from: self.from,
                openings: self.openings.clone(),
                acting: at,
                names,
            }),
            _ => {}
        }
    }

    fn copy(&mut self, body: &'m Process, scope: &[Message], at: usize, mut names: u32) {
        let copy = Rc::new(open(body, scope, &mut names));
        self.openings.push(Opening { at, copy: copy.clone() });
        for (index, thread) in copy.iter().enumerate() {
            self.thread(thread, at + index, names);
        }
        self.openings.pop();
    }
}

/// Calls `each` on the silent steps of a state in their order, until it breaks.
pub fn silent_steps<'m, B>(
    state: &State<'m>,
    each: &mut dyn FnMut(SilentStep<'m>) -> ControlFlow<B>,
) -> ControlFlow<B> {
    Silent { openings: Vec::new(), each }.list(&state.threads, 0, state.names)
}

/// The search for silent steps, below the openings made so far.
struct Silent<'s, 'm, B> {
    openings: Vec<Opening<'m>>,
    each: &'s mut dyn FnMut(SilentStep<'m>) -> ControlFlow<B>,
}

impl<'m, B> Silent<'_, 'm, B> {
    /// The silent steps of a list whose first thread has index `first`.
    fn list(&mut self, threads: &Threads<'m>, first: usize, names: u32) -> ControlFlow<B> {
        for (index, thread) in threads.iter().enumerate() {
            if let Thread::Repl { body, scope } = &**thread {
                self.repl(body, scope, first + index, names)?;
            }
        }
        let outputs = offers(threads, first, names, &is_output);
        self.join(&outputs, |names| offers(threads, first, names, &is_input))
    }

    /// The silent steps of a repl thread: within one copy, then from one copy to a second.
    fn repl(&mut self, body: &'m Process, scope: &[Message], at: usize, mut names: u32) -> ControlFlow<B> {
        let copy = Rc::new(open(body, scope, &mut names));
        self.openings.push(Opening { at, copy: copy.clone() });
        self.list(&copy, at, names)?;
        let outputs = offers(&copy, at, names, &is_output);
        self.join(&outputs, |names| second_inputs(body, scope, at + copy.len(), names))?;
        self.openings.pop();
        ControlFlow::Continue(())
    }

    /// Joins outputs with inputs on equal channels from elsewhere: all offers of a repl thread's copy are of that
    /// thread, and not joined here with each other. The inputs depend on the number of private names made before
    /// them, that is after the output's copies are opened.
    fn join(&mut self, outputs: &[Offer<'m>], inputs_after: impl Fn(u32) -> Vec<Offer<'m>>) -> ControlFlow<B> {
        let mut inputs = Vec::new();
        let mut made = None;
        for output in outputs {
            if made != Some(output.names) {
                made = Some(output.names);
                inputs = inputs_after(output.names);
            }
            for input in &inputs {
                if input.from != output.from && channel(&input.thread) == channel(&output.thread) {
                    let step = self.step(output, input);
                    (self.each)(step)?;
                }
            }
        }
        ControlFlow::Continue(())
    }

    /// One silent step. Of the two, the offer further right moves by the copies opened on its left.
    fn step(&self, output: &Offer<'m>, input: &Offer<'m>) -> SilentStep<'m> {
        let input_is_right = input.from > output.from;
        let input_shift = if input_is_right { grown(&output.openings) } else { 0 };
        let output_shift = if input_is_right { 0 } else { grown(&input.openings) };
        let shifted = |opening: &Opening<'m>| Opening { at: opening.at + input_shift, copy: opening.copy.clone() };
        let mut openings = self.openings.clone();
        openings.extend_from_slice(&output.openings);
        openings.extend(input.openings.iter().map(shifted));
        SilentStep {
            openings,
            output: output.acting + output_shift,
            input: input.acting + input_shift,
            names: input.names,
        }
    }
}

/// The input offers of a second copy, opened at `at`, the repl thread's index after the first. They stand right of all
/// offers of the first copy.
fn second_inputs<'m>(body: &'m Process, scope: &[Message], at: usize, names: u32) -> Vec<Offer<'m>> {
    let mut found = Vec::new();
    let mut search = Search { wanted: &is_input, from: usize::MAX, openings: Vec::new(), found: &mut found };
    search.copy(body, scope, at, names);
    found
}

fn is_output(thread: &Thread) -> bool {
    matches!(thread, Thread::Output { .. })
}

fn is_input(thread: &Thread) -> bool {
    matches!(thread, Thread::Input { .. })
}

/// The channel an output or input thread acts on.
pub fn channel<'t>(thread: &'t Thread) -> Option<&'t Message> {
    match thread {
        Thread::Output { channel, .. } | Thread::Input { channel, .. } => Some(channel),
        Thread::Repl { .. } => None,
    }
}

/// By how much openings lengthen a list.
fn grown(openings: &[Opening]) -> usize {
    openings.iter().map(|opening| opening.copy.len()).sum()
}

fn opened<'m>(threads: &Threads<'m>, openings: &[Opening<'m>]) -> Threads<'m> {
    let mut threads = threads.clone();
    for opening in openings {
        threads.splice(opening.at..opening.at, opening.copy.iter().cloned());
    }
    threads
}

/// The message an output thread sends, and what follows it, settled.
fn sent<'m>(thread: &Thread<'m>, names: &mut u32) -> Result<(Message, Threads<'m>), TooLarge> {
    let Thread::Output { message, then, scope, .. } = thread else { panic!("the thread does not output") };
    Ok((message.clone(), settle(then, scope.to_vec(), names)?))
}

/// What follows an input thread that takes `message`, settled.
fn received<'m>(thread: &Thread<'m>, message: Message, names: &mut u32) -> Result<Threads<'m>, TooLarge> {
    let Thread::Input { then, scope, .. } = thread else { panic!("the thread does not input") };
    let mut scope = scope.to_vec();
    scope.push(message);
    settle(then, scope, names)
}

/// The state an output offer leads to; its message is the next alias. An error is a state over the limit on normal
/// forms.
pub fn after_output<'m>(state: &State<'m>, offer: &Offer<'m>) -> Result<State<'m>, TooLarge> {
    let mut names = offer.names;
    let mut threads = opened(&state.threads, &offer.openings);
    let (message, rest) = sent(&offer.thread, &mut names)?;
    threads.splice(offer.acting..=offer.acting, rest);
    let mut aliases = state.aliases.clone();
    aliases.push(message);
    Ok(State { threads, aliases, names })
}

/// The state an input offer leads to when it takes `message`.
pub fn after_input<'m>(state: &State<'m>, offer: &Offer<'m>, message: Message) -> Result<State<'m>, TooLarge> {
    let mut names = offer.names;
    let mut threads = opened(&state.threads, &offer.openings);
    let rest = received(&offer.thread, message, &mut names)?;
    threads.splice(offer.acting..=offer.acting, rest);
    Ok(State { threads, aliases: state.aliases.clone(), names })
}

/// The state a silent step leads to. Names are taken by the output's copies, the input's copies, what follows the
/// output and what follows the input, in this order.
pub fn after_silent<'m>(state: &State<'m>, step: &SilentStep<'m>) -> Result<State<'m>, TooLarge> {
    let mut names = step.names;
    let mut threads = opened(&state.threads, &step.openings);
    let (message, output_rest) = sent(&threads[step.output], &mut names)?;
    let input_rest = received(&threads[step.input], message, &mut names)?;
    let mut rests = [(step.output, output_rest), (step.input, input_rest)];
    rests.sort_by_key(|(acting, _)| *acting);
    for (acting, rest) in rests.into_iter().rev() {
        threads.splice(acting..=acting, rest);
    }
    Ok(State { threads, aliases: state.aliases.clone(), names })
}
