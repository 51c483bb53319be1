//! Where judging first meets a limit, for each sort of excess (document 01, "Judging and its count").

mod bytes;

use bytes::{formula, model, par_of, within};
use second_checker::explanation::{first_limit, reason, Cut, Excess, Met, Step};
use second_checker::syntax::{Formula, Process, Term};

const TRUE: &str = "00 00 00 00 00";
const OUTPUT: &str = "02 00 00 00 00 00";

fn met<'m>(formula: &Formula, model: &'m Process) -> Met<'m> {
    assert!(reason(formula, model, Cut { steps: 1, levels: 1 }).is_none());
    first_limit(formula, model).expect("a limit is met")
}

/// What is over at a model's start state.
fn at_start(text: &str) -> Vec<Excess> {
    let model = model(text);
    let met = met(&formula(TRUE), &model);
    assert!(met.steps.is_empty() && !met.recipe);
    met.excess
}

/// A full tree of mac: 2 to the `depth` less 1 nodes.
fn full(depth: usize) -> String {
    if depth == 1 {
        return "00 00".to_string();
    }
    format!("07 {0} {0}", full(depth - 1))
}

fn address(term: &Term) -> usize {
    term as *const Term as usize
}

#[test]
fn threads() {
    assert!(first_limit(&formula(TRUE), &model(&par_of(&[OUTPUT; 32]))).is_none());
    assert_eq!(at_start(&par_of(&[OUTPUT; 33])), [Excess::Threads(33)]);
}

#[test]
fn private_names() {
    let chunk = |names: usize| format!("{} 00", "01 ".repeat(names));
    assert_eq!(at_start(&par_of(&[vec![chunk(12); 10], vec![chunk(9)]].concat())), [Excess::PrivateNames(129)]);
}

#[test]
fn bound_nodes() {
    let last = format!("01 01 01 01 01 {OUTPUT}");
    let model = format!("05 {} {}", full(8), par_of(&[OUTPUT, OUTPUT, OUTPUT, &last]));
    assert_eq!(at_start(&model), [Excess::Nodes(1025)]);
}

#[test]
fn several_at_once() {
    let threads = par_of(&vec![format!("01 01 01 01 {OUTPUT}"); 33]);
    let expected = [Excess::Threads(33), Excess::PrivateNames(132), Excess::Nodes(33 * 131)];
    assert_eq!(at_start(&format!("05 {} {threads}", full(7))), expected);
}

#[test]
fn a_normal_form_that_arises_while_settling() {
    // let x be of 127 nodes in (in 1 y. nil | out 0 5. let z = snd(pair(x, fst(x))) in nil)
    let model = model(&format!("05 {} 06 03 00 01 00 02 00 00 00 05 05 04 02 01 00 03 01 00 00", full(7)));
    let formula = formula(&format!("02 03 00 01 {TRUE} 04 00 01 00 02 03 00 00 01 {TRUE}"));
    let met = met(&formula, &model);
    let Process::Let { value: Term::Snd(pair), .. } = within(&model, "trt") else { panic!("the second let") };
    assert_eq!(met.excess, [Excess::Message { nodes: 256, term: address(pair) }]);
    assert!(!met.recipe);
    let [Step::Input { then: taken, .. }, Step::Output { then: sent, .. }] = met.steps[..] else {
        panic!("an input and an output step")
    };
    assert!(std::ptr::eq(taken, within(&model, "tlt")) && std::ptr::eq(sent, within(&model, "trt")));
}

#[test]
fn a_normal_form_that_arises_in_a_copy() {
    // let x be of 127 nodes in repl in mac(x, mac(x, x)) y. nil
    let model = model(&format!("05 {} 07 03 07 01 00 07 01 00 01 00 00", full(7)));
    let met = met(&formula(TRUE), &model);
    let Process::Input { channel, .. } = within(&model, "tt") else { panic!("the input") };
    assert_eq!(met.excess, [Excess::Message { nodes: 1 + 127 + 255, term: address(channel) }]);
    assert!(met.steps.is_empty() && !met.recipe);
}

#[test]
fn recipes() {
    let model = model(&format!("06 02 00 00 00 01 00 02 00 00 {} 00", full(7)));
    let over = "02 01 00 03 01 00";
    let is_met = |text: &str, find: fn(&Formula) -> &Term| {
        let formula = formula(&format!("03 00 00 {text}"));
        let Formula::OutputStep { body, .. } = &formula else { panic!("an output step") };
        let met = met(&formula, &model);
        assert_eq!(met.excess, [Excess::Message { nodes: 256, term: address(find(body)) }]);
        assert!(met.recipe);
        let [Step::Output { then, .. }] = met.steps[..] else { panic!("one output step") };
        // After the first output the alias has one node, and the recipe is small.
        assert!(std::ptr::eq(then, within(&model, "rt")));
    };
    is_met(&format!("00 00 00 {over}"), |body| match body {
        Formula::Equal(_, right) => right,
        _ => panic!("an equality"),
    });
    is_met(&format!("03 {over} {TRUE}"), |body| match body {
        Formula::OutputStep { channel, .. } => channel,
        _ => panic!("an output step"),
    });
    is_met(&format!("04 00 09 {over} {TRUE}"), |body| match body {
        Formula::InputStep { message, .. } => message,
        _ => panic!("an input step"),
    });
}

#[test]
fn the_first_visit_in_the_order_of_judging() {
    // out 0 1. (132 names) | out 0 2. (33 outputs)
    let many = par_of(&[OUTPUT; 33]);
    let names = format!("{} 00", "01 ".repeat(12));
    let model = model(&format!("06 02 00 00 00 01 {} 02 00 00 00 02 {many}", par_of(&vec![names; 11])));
    let met = met(&formula(&format!("02 {TRUE} 03 00 00 {TRUE}")), &model);
    assert_eq!(met.excess, [Excess::PrivateNames(132)]);
    assert!(matches!(met.steps[..], [Step::Output { then, .. }] if std::ptr::eq(then, within(&model, "lt"))));
}
