//! Steps as they are told: their label, and the processes that act (document 01, "Steps").

use crate::messages::Message;
use crate::states::{State, Thread};
use crate::steps::{Offer, SilentStep};
use crate::syntax::Process;

/// One step, with the processes that act. Each is given by what follows its output or input (`then` of that node), a
/// reference into the model, so that its address identifies the node. Copies of one process have the same address; `new`
/// is whether one is opened for the step.
#[derive(Clone, Debug)]
pub enum Step<'m> {
    Output { then: &'m Process, channel: Message, message: Message, new: bool },
    Input { then: &'m Process, channel: Message, message: Message, new: bool },
    Silent { output: &'m Process, input: &'m Process, channel: Message, message: Message },
}

impl<'m> Step<'m> {
    pub(super) fn output(offer: &Offer<'m>) -> Step<'m> {
        let (then, channel, message) = sender(&offer.thread);
        Step::Output { then, channel, message, new: offer.is_in_new_copy() }
    }

    pub(super) fn input(offer: &Offer<'m>, message: Message) -> Step<'m> {
        let (then, channel) = taker(&offer.thread);
        Step::Input { then, channel, message, new: offer.is_in_new_copy() }
    }

    pub(super) fn silent(step: &SilentStep<'m>, state: &State<'m>) -> Step<'m> {
        let (output, input) = step.acting(state);
        let (output, channel, message) = sender(&output);
        let (input, _) = taker(&input);
        Step::Silent { output, input, channel, message }
    }
}

/// What follows an output thread, its channel and its message.
fn sender<'m>(thread: &Thread<'m>) -> (&'m Process, Message, Message) {
    let Thread::Output { channel, message, then, .. } = thread else { panic!("the thread does not output") };
    (then, channel.clone(), message.clone())
}

/// What follows an input thread, and its channel.
fn taker<'m>(thread: &Thread<'m>) -> (&'m Process, Message) {
    let Thread::Input { channel, then, .. } = thread else { panic!("the thread does not input") };
    (then, channel.clone())
}
