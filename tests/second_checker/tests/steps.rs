//! The order of offers and silent steps, where rests stand, and which private names are taken (document 01, "Steps").

mod bytes;

use bytes::model;
use second_checker::messages::{Message, Shape};
use second_checker::states::{State, Thread};
use second_checker::steps::{after_input, after_output, after_silent, inputs_on, outputs_on, silent_steps};
use second_checker::syntax::Process;
use std::ops::ControlFlow;

fn start(model: &Process) -> State<'_> {
    State::start(model).expect("a start state under the limit on normal forms")
}

fn message(message: &Message) -> String {
    match message.shape() {
        Shape::Public(name) => name.to_string(),
        Shape::Private(name, _) => format!("n{name}"),
        _ => "...".to_string(),
    }
}

/// The threads of a state in words: `out channel message`, `in channel` or `repl`.
fn threads(state: &State) -> String {
    let thread = |thread: &Thread| match thread {
        Thread::Output { channel, message: m, .. } => format!("out {} {}", message(channel), message(m)),
        Thread::Input { channel, .. } => format!("in {}", message(channel)),
        Thread::Repl { .. } => "repl".to_string(),
    };
    let words: Vec<String> = state.threads.iter().map(|t| thread(t)).collect();
    words.join(", ")
}

fn after_outputs(state: &State, channel: u16) -> Vec<String> {
    let offers = outputs_on(state, &Message::public(channel));
    offers.iter().map(|offer| threads(&after_output(state, offer).unwrap())).collect()
}

fn after_silents<'m>(state: &State<'m>) -> Vec<State<'m>> {
    let mut states = Vec::new();
    let _: ControlFlow<()> = silent_steps(state, &mut |step| {
        states.push(after_silent(state, &step).unwrap());
        ControlFlow::Continue(())
    });
    states
}

#[test]
fn settling_goes_left_to_right() {
    // (new x. out 0 x) | (if 0 = 0 then new y. out 1 y else nil) | nil | let z = 7 in new w. out z w
    let model =
        model("06 01 02 00 00 01 00 00 06 04 00 00 00 00 01 02 00 01 01 00 00 00 06 00 05 00 07 01 02 01 00 01 01 00");
    let state = start(&model);
    assert_eq!(threads(&state), "out 0 n0, out 1 n1, out 7 n2");
    assert_eq!((state.names, state.nodes()), (3, 4));
}

#[test]
fn the_rest_of_a_copy_stands_before_its_repl_thread() {
    // out 9 9 | repl out 0 1. out 5 5 | out 8 8
    let model = model("06 02 00 09 00 09 00 06 07 02 00 00 00 01 02 00 05 00 05 00 02 00 08 00 08 00");
    let state = start(&model);
    assert_eq!(after_outputs(&state, 0), ["out 9 9, out 5 5, repl, out 8 8"]);
    assert_eq!(after_outputs(&state, 5), [""; 0]);
}

#[test]
fn what_follows_stands_in_its_place() {
    // out 1 1 | in 0 x. (out 2 x | out 3 3) | out 4 4
    let model = model("06 02 00 01 00 01 00 06 03 00 00 06 02 00 02 01 00 00 02 00 03 00 03 00 02 00 04 00 04 00");
    let state = start(&model);
    let offers = inputs_on(&state, &Message::public(0));
    let next = after_input(&state, &offers[0], Message::public(77)).unwrap();
    assert_eq!(threads(&next), "out 1 1, out 2 77, out 3 3, out 4 4");
    assert!(next.aliases.is_empty());
}

#[test]
fn output_steps_go_left_to_right() {
    // out 0 1 | repl (out 0 2 | out 0 3) | out 0 4
    let model = model("06 02 00 00 00 01 00 06 07 06 02 00 00 00 02 00 02 00 00 00 03 00 02 00 00 00 04 00");
    let state = start(&model);
    let steps = after_outputs(&state, 0);
    assert_eq!(
        steps,
        ["repl, out 0 4", "out 0 1, out 0 3, repl, out 0 4", "out 0 1, out 0 2, repl, out 0 4", "out 0 1, repl",]
    );
}

#[test]
fn silent_steps_go_in_their_order() {
    // repl (out 0 1. out 10 0 | in 0. out 11 0) | out 0 2. out 12 0 | in 0. out 13 0
    let model = model(
        "06 07 06 02 00 00 00 01 02 00 0A 00 00 00 03 00 00 02 00 0B 00 00 00 \
         06 02 00 00 00 02 02 00 0C 00 00 00 03 00 00 02 00 0D 00 00 00",
    );
    let state = start(&model);
    let steps: Vec<String> = after_silents(&state).iter().map(threads).collect();
    assert_eq!(
        steps,
        [
            "out 10 0, out 11 0, repl, out 0 2, in 0",
            "out 10 0, in 0, out 0 1, out 11 0, repl, out 0 2, in 0",
            "out 10 0, in 0, repl, out 0 2, out 13 0",
            "out 0 1, out 11 0, repl, out 12 0, in 0",
            "repl, out 12 0, out 13 0",
        ]
    );
}

#[test]
fn names_are_taken_copies_first_then_rests_output_before_input() {
    // repl new x. (out 0 x. new y. out 1 y | in 0. new z. out 2 z)
    let model = model("07 01 06 02 00 00 01 00 01 02 00 01 01 01 00 03 00 00 01 02 00 02 01 02 00");
    let state = start(&model);
    let steps = after_silents(&state);
    assert_eq!(threads(&steps[0]), "out 1 n1, out 2 n2, repl");
    assert_eq!(threads(&steps[1]), "out 1 n2, in 0, out 0 n1, out 2 n3, repl");
    assert_eq!((steps[0].names, steps[1].names, steps.len()), (3, 4, 2));
}

#[test]
fn an_input_left_of_its_output_still_opens_its_copy_second() {
    // repl new x. in 0. out x x | repl new y. out 0 y. new z. out 5 z
    let model = model("06 07 01 03 00 00 02 01 00 01 00 00 07 01 02 00 00 01 00 01 02 00 05 01 01 00");
    let state = start(&model);
    let steps = after_silents(&state);
    assert_eq!(steps.len(), 1);
    assert_eq!(threads(&steps[0]), "out n1 n1, repl, out 5 n2, repl");
}

#[test]
fn a_copy_that_is_not_taken_uses_no_names() {
    // repl new x. out 1 x | out 0 0
    let model = model("06 07 01 02 00 01 01 00 00 02 00 00 00 00 00");
    let state = start(&model);
    let names_after = |channel| {
        let offers = outputs_on(&state, &Message::public(channel));
        after_output(&state, &offers[0]).unwrap().names
    };
    assert_eq!((state.names, names_after(0), names_after(1)), (0, 0, 1));
}

#[test]
fn copies_of_copies_stand_before_the_inner_repl_thread() {
    // repl new k. repl out 0 k. out 1 1
    let model = model("07 01 07 02 00 00 01 00 02 00 01 00 01 00");
    let state = start(&model);
    let offers = outputs_on(&state, &Message::public(0));
    assert_eq!(offers.len(), 1);
    let next = after_output(&state, &offers[0]).unwrap();
    assert_eq!(threads(&next), "out 1 1, repl, repl");
    assert_eq!((next.names, message(&next.aliases[0])), (1, "n0".to_string()));
    let sent: Vec<String> = outputs_on(&next, &Message::public(0))
        .iter()
        .map(|offer| message(&after_output(&next, offer).unwrap().aliases[1]))
        .collect();
    assert_eq!(sent, ["n0", "n1"]);
}

#[test]
fn any_message_may_be_a_channel() {
    // out pair(0,1) 2 | in x y-bound pair: in pair(0,1)
    let model = model("06 02 02 00 00 00 01 00 02 00 03 02 00 00 00 01 02 00 05 01 00 00");
    let steps = after_silents(&start(&model)).iter().map(threads).collect::<Vec<_>>();
    assert_eq!(steps, ["out 5 2"]);
}
