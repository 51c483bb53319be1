//! Reasons for truths: which step or side is told, how much is kept, who acts (document 01, "Steps").

mod bytes;

use bytes::{formula, model, par_of, within};
use second_checker::explanation::{reason, Cut, Reason, Step, Tried};
use second_checker::messages::{Message, Origin, Shape};
use second_checker::syntax::Process;
use std::mem::size_of;

const TRUE: &str = "00 00 00 00 00";
const FALSE: &str = "00 00 00 00 01";
const CUT: Cut = Cut { steps: 2, levels: 2 };

fn told<'m>(text: &str, model: &'m Process, cut: Cut) -> Reason<'m> {
    reason(&formula(text), model, cut).expect("no limit is met")
}

/// A reason in words. A step is told by its message.
fn words(reason: &Reason) -> String {
    match reason {
        Reason::Equal { left, right } => format!("{}={}", message(left), message(right)),
        Reason::Not(body) => format!("not {}", words(body)),
        Reason::Both(left, right) => format!("({} and {})", words(left), words(right)),
        Reason::Side { right, reason } => format!("{} {}", if *right { "right" } else { "left" }, words(reason)),
        Reason::Step { step, number, of, reason } => format!("{number} of {of} {} {}", sent(step), words(reason)),
        Reason::NoStep { tried, of } => {
            let told = |tried: &Tried| format!("{} {} {}", tried.number, sent(&tried.step), words(&tried.reason));
            format!("none of {of} [{}]", tried.iter().map(told).collect::<Vec<String>>().join("; "))
        }
    }
}

fn sent(step: &Step) -> String {
    let (Step::Output { message: m, .. } | Step::Input { message: m, .. } | Step::Silent { message: m, .. }) = step;
    format!("<{}>", message(m))
}

fn message(message: &Message) -> String {
    match message.shape() {
        Shape::Public(name) => name.to_string(),
        Shape::Private(name, _) => format!("n{name}"),
        _ => "...".to_string(),
    }
}

/// Outputs on name 0 in parallel, each with what follows it.
fn outputs(sent: &[(u16, &str)]) -> Process {
    model(&par_of(&sent.iter().map(|(name, then)| format!("02 00 00 00 {name:02X} {then}")).collect::<Vec<_>>()))
}

#[test]
fn equalities_and_sides() {
    let nil = model("00");
    let longer = format!("01 01 {FALSE}");
    let cases = [
        ("00 00 05 00 05".to_string(), true, 1, "5=5"),
        ("01 00 00 05 00 06".to_string(), true, 2, "not 5=6"),
        (format!("02 {TRUE} 01 {FALSE}"), true, 4, "(0=0 and not 0=1)"),
        (format!("02 {TRUE} {FALSE}"), false, 2, "right 0=1"),
        (format!("02 {longer} {FALSE}"), false, 2, "right 0=1"),
        (format!("02 {FALSE} {longer}"), false, 2, "left 0=1"),
        (format!("02 {FALSE} {FALSE}"), false, 2, "left 0=1"),
    ];
    for (text, truth, length, expected) in cases {
        let reason = told(&text, &nil, CUT);
        assert_eq!((reason.truth(), reason.length(), words(&reason).as_str()), (truth, length, expected));
    }
}

#[test]
fn a_true_step_formula_tells_the_first_step_with_the_shortest_reason() {
    let model = outputs(&[(1, "00"), (3, "00"), (2, "00"), (2, "00")]);
    // The message is 1, in a long way, or it is 2.
    let reason = told("03 00 00 01 02 01 01 01 00 01 00 00 01 01 00 01 00 00 02", &model, CUT);
    assert_eq!(words(&reason), "3 of 4 <2> not right not 2=2");
    assert_eq!((reason.truth(), reason.length()), (true, 5));
}

#[test]
fn a_false_step_formula_tells_so_many_steps() {
    let model = outputs(&[(1, "00"), (2, "00"), (3, "00")]);
    let steps = |steps| words(&told("03 00 00 00 01 00 00 07", &model, Cut { steps, levels: 1 }));
    assert_eq!(steps(0), "none of 3 [1 <1> 1=7]");
    assert_eq!(steps(2), "none of 3 [1 <1> 1=7; 2 <2> 2=7]");
    assert_eq!(steps(9), "none of 3 [1 <1> 1=7; 2 <2> 2=7; 3 <3> 3=7]");
    assert_eq!(words(&told(&format!("05 {TRUE}"), &model, CUT)), "none of 0 []");
}

#[test]
fn of_many_steps_those_that_go_furthest_are_told() {
    let further = "02 00 01 00 09 00";
    let model = outputs(&[(1, "00"), (2, further), (3, "00"), (4, further)]);
    let steps = |steps| words(&told(&format!("03 00 00 03 00 01 {FALSE}"), &model, Cut { steps, levels: 1 }));
    let [second, fourth] = ["2 <2> none of 1 [1 <9> 0=1]", "4 <4> none of 1 [1 <9> 0=1]"];
    assert_eq!(steps(1), format!("none of 4 [{second}]"));
    assert_eq!(steps(2), format!("none of 4 [{second}; {fourth}]"));
    assert_eq!(steps(3), format!("none of 4 [1 <1> none of 0 []; {second}; {fourth}]"));
}

#[test]
fn below_the_levels_one_step_is_told() {
    let rest = "06 02 00 01 00 06 00 02 00 01 00 07 00";
    let model = outputs(&[(1, rest), (2, rest)]);
    let at = |levels, body: &str| words(&told(&format!("03 00 00 03 00 01 {body}"), &model, Cut { steps: 9, levels }));
    let both = "none of 2 [1 <6> 0=1; 2 <7> 0=1]";
    assert_eq!(at(2, FALSE), format!("none of 2 [1 <1> {both}; 2 <2> {both}]"));
    let one = "none of 2 [1 <6> 0=1]";
    assert_eq!(at(1, FALSE), format!("none of 2 [1 <1> {one}; 2 <2> {one}]"));
    assert_eq!(at(0, FALSE), format!("none of 2 [1 <1> {one}]"));
    assert_eq!(at(0, TRUE), "1 of 2 <1> 1 of 2 <6> 0=0", "what is true is told whole");
}

#[test]
fn single_steps_are_no_level() {
    let model = outputs(&[(1, "02 00 00 00 02 02 00 00 00 03 00")]);
    let cut = Cut { steps: 9, levels: 0 };
    let reason = told(&format!("03 00 00 03 00 00 03 00 00 {FALSE}"), &model, cut);
    assert_eq!(words(&reason), "none of 1 [1 <1> none of 1 [1 <2> none of 1 [1 <3> 0=1]]]");
    assert_eq!((reason.length(), reason.reach()), (4, 3));
}

#[test]
fn output_and_input_steps_name_what_follows() {
    // repl new x. (out 0 x. out 8 8 | in 1 y. out 9 9)
    let model = model("07 01 06 02 00 00 01 00 02 00 08 00 08 00 03 00 01 02 00 09 00 09 00");
    let reason = told(&format!("03 00 00 04 00 01 01 00 {TRUE}"), &model, CUT);
    let Reason::Step { step: Step::Output { then, new: true, .. }, reason, .. } = &reason else {
        panic!("an output step of a new copy")
    };
    assert!(std::ptr::eq(*then, within(&model, "ttlt")));
    // The rest of the first copy offers before the next copy does.
    let Reason::Step { step: Step::Input { then, channel, message: m, new: false }, number: 1, of: 2, .. } = &**reason
    else {
        panic!("the first of two input steps")
    };
    assert!(std::ptr::eq(*then, within(&model, "ttrt")));
    assert_eq!((message(channel).as_str(), message(m).as_str()), ("1", "n0"));
}

#[test]
fn silent_steps_name_what_follows_both() {
    // (in 0 y. out 9 9 | repl new x. out 0 x. nil) | repl (out 0 7. nil | in 5 z. nil)
    let model = model("06 06 03 00 00 02 00 09 00 09 00 07 01 02 00 00 01 00 00 07 06 02 00 00 00 07 00 03 00 05 00");
    let reason = told(&format!("05 {FALSE}"), &model, CUT);
    let Reason::NoStep { tried, of: 2 } = &reason else { panic!("two silent steps") };
    for (tried, (path, sent)) in tried.iter().zip([("lrttt", "n0"), ("rtlt", "7")]) {
        let Step::Silent { output, input, channel, message: m } = &tried.step else { panic!("a silent step") };
        assert!(std::ptr::eq(*output, within(&model, path)) && std::ptr::eq(*input, within(&model, "llt")));
        assert_eq!((message(channel).as_str(), message(m).as_str()), ("0", sent));
    }
}

#[test]
fn names_of_two_copies_have_one_origin() {
    let model = model("07 01 02 00 00 01 00 00");
    let reason = told("03 00 00 03 00 00 00 01 00 01 01", &model, CUT);
    assert_eq!(words(&reason), "none of 1 [1 <n0> none of 1 [1 <n1> n0=n1]]");
    let Reason::NoStep { tried: first, .. } = &reason else { panic!("a step formula") };
    let Reason::NoStep { tried: second, .. } = &first[0].reason else { panic!("a step formula") };
    let Reason::Equal { left, right } = &second[0].reason else { panic!("an equality") };
    let expected = within(&model, "tt") as *const Process as usize;
    for name in [left, right] {
        assert!(matches!(name.shape(), Shape::Private(_, Origin(origin)) if *origin == expected));
    }
}

#[test]
fn an_origin_is_no_part_of_a_name() {
    assert_eq!(Message::private(3, Origin(1)), Message::private(3, Origin(2)));
    assert_ne!(Message::private(3, Origin(1)), Message::private(4, Origin(1)));
    assert_eq!(size_of::<Shape>(), size_of::<(usize, Message, Message)>());
}
