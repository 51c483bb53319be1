//! Explanations of many small findings agree with judging, and each reason can be followed step by step (document 01,
//! "Judging and its count").

use second_checker::explanation::{first_limit, reason, Cut, Reason, Tried};
use second_checker::judging::Judging;
use second_checker::messages::normal_form;
use second_checker::states::State;
use second_checker::steps::{after_input, after_output, after_silent, inputs_on, outputs_on, silent_steps};
use second_checker::syntax::{Formula, Process, Term};
use std::ops::ControlFlow;

const CUTS: [Cut; 4] = [
    Cut { steps: 0, levels: 0 },
    Cut { steps: 1, levels: 2 },
    Cut { steps: 3, levels: 1 },
    Cut { steps: usize::MAX, levels: usize::MAX },
];

struct Random(u32);

impl Random {
    fn below(&mut self, bound: usize) -> usize {
        self.0 = self.0.wrapping_mul(1_664_525).wrapping_add(1_013_904_223);
        (self.0 >> 16) as usize % bound
    }

    fn term(&mut self, depth: usize, in_scope: usize) -> Term {
        let leaf = depth == 0 || self.below(4) > 0;
        match self.below(if leaf { 2 } else { 6 }) {
            1 if leaf && in_scope > 0 => Term::Variable(self.below(in_scope)),
            0 | 1 if leaf => Term::Name(self.below(2) as u16),
            0 => Term::Fst(self.part(depth, in_scope)),
            1 => Term::Snd(self.part(depth, in_scope)),
            2 => Term::Enc(self.part(depth, in_scope), self.part(depth, in_scope)),
            3 => Term::Dec(self.part(depth, in_scope), self.part(depth, in_scope)),
            4 => Term::Mac(self.part(depth, in_scope), self.part(depth, in_scope)),
            _ => Term::Pair(self.part(depth, in_scope), self.part(depth, in_scope)),
        }
    }

    fn part(&mut self, depth: usize, in_scope: usize) -> Box<Term> {
        Box::new(self.term(depth - 1, in_scope))
    }

    fn process(&mut self, depth: usize, in_scope: usize) -> Process {
        if depth == 0 {
            return Process::Nil;
        }
        let kind = self.below(12);
        let [channel, message] = [1, 3].map(|depth| self.term(depth, in_scope));
        let mut then = |bound| Box::new(self.process(depth - 1, in_scope + bound));
        match kind {
            0 => Process::New(then(1)),
            1 | 2 => Process::Output { channel, message, then: then(0) },
            3 | 4 => Process::Input { channel, then: then(1) },
            5 => Process::If { left: channel, right: message, then: then(0), otherwise: then(0) },
            6 => Process::Let { value: message, then: then(1) },
            7 => Process::Repl(then(0)),
            _ => Process::Par(then(0), then(0)),
        }
    }

    /// A model, every second time below a message of 127 nodes, from which large ones are made soon.
    fn model(&mut self) -> Process {
        match self.below(2) {
            0 => self.process(6, 0),
            _ => Process::Let { value: full(7), then: Box::new(self.process(6, 1)) },
        }
    }

    fn formula(&mut self, depth: usize, aliases: usize) -> Formula {
        let [channel, message] = [1, 2].map(|depth| self.term(depth, aliases));
        if depth == 0 {
            return Formula::Equal(channel, message);
        }
        let kind = self.below(9);
        let mut body = |more| Box::new(self.formula(depth - 1, aliases + more));
        match kind {
            0 => Formula::Equal(channel, message),
            1 | 2 => Formula::Not(body(0)),
            3 | 4 => Formula::And(body(0), body(0)),
            5 | 6 => Formula::OutputStep { channel, body: body(1) },
            7 => Formula::InputStep { channel, message, body: body(0) },
            _ => Formula::SilentStep(body(0)),
        }
    }
}

fn full(depth: usize) -> Term {
    if depth == 1 {
        return Term::Name(0);
    }
    Term::Mac(Box::new(full(depth - 1)), Box::new(full(depth - 1)))
}

/// The body of a step formula, and the states that its steps lead to.
fn after<'f, 'm>(formula: &'f Formula, state: &State<'m>) -> (&'f Formula, Vec<State<'m>>) {
    let work = |recipe| normal_form(recipe, &state.aliases).unwrap();
    let mut states = Vec::new();
    let body = match formula {
        Formula::OutputStep { channel, body } => {
            states.extend(outputs_on(state, &work(channel)).iter().map(|offer| after_output(state, offer).unwrap()));
            body
        }
        Formula::InputStep { channel, message, body } => {
            let message = work(message);
            let next = |offer| after_input(state, offer, message.clone()).unwrap();
            states.extend(inputs_on(state, &work(channel)).iter().map(next));
            body
        }
        Formula::SilentStep(body) => {
            let _: ControlFlow<()> = silent_steps(state, &mut |step| {
                states.push(after_silent(state, &step).unwrap());
                ControlFlow::Continue(())
            });
            body
        }
        _ => panic!("not a step formula"),
    };
    (body, states)
}

/// Follows a reason along its formula, as far as it is told.
fn follow(reason: &Reason, formula: &Formula, state: &State, cut: Cut) {
    match (reason, formula) {
        (Reason::Equal { left, right }, Formula::Equal(m, n)) => {
            assert_eq!(Ok(left), normal_form(m, &state.aliases).as_ref());
            assert_eq!(Ok(right), normal_form(n, &state.aliases).as_ref());
        }
        (Reason::Not(reason), Formula::Not(body)) => follow(reason, body, state, cut),
        (Reason::Both(left, right), Formula::And(f, g)) => {
            assert!(left.truth() && right.truth());
            follow(left, f, state, cut);
            follow(right, g, state, cut);
        }
        (Reason::Side { right, reason }, Formula::And(f, g)) => {
            assert!(!reason.truth());
            follow(reason, if *right { g } else { f }, state, cut);
        }
        (Reason::Step { number, of, reason, .. }, _) => {
            let (body, states) = after(formula, state);
            assert!(reason.truth() && states.len() == *of);
            follow(reason, body, &states[number - 1], cut);
        }
        (Reason::NoStep { tried, of }, _) => {
            let (body, states) = after(formula, state);
            let all = (*of).min(1).max((*of).min(cut.steps));
            assert!(states.len() == *of && (tried.len() == all || tried.len() == 1), "{} of {of}", tried.len());
            assert!(tried.windows(2).all(|pair| pair[0].number < pair[1].number));
            for Tried { number, reason, .. } in tried {
                assert!(!reason.truth());
                follow(reason, body, &states[number - 1], cut);
            }
        }
        _ => panic!("{reason:?} is no reason for {formula:?}"),
    }
}

#[test]
fn reasons_and_limits_agree_with_judging() {
    let mut random = Random(7);
    let [mut limits, mut truths, mut falsehoods] = [0; 3];
    for _ in 0..20_000 {
        let (model, formula) = (random.model(), random.formula(5, 0));
        let mut judging = Judging::new(10_000);
        let Ok(truth) = judging.model(&formula, &model) else { continue };
        assert_eq!(first_limit(&formula, &model).is_some(), judging.met_limit);
        for cut in CUTS {
            let reason = reason(&formula, &model, cut);
            assert_eq!(reason.as_ref().map(Reason::truth), (!judging.met_limit).then_some(truth));
            if let Some(reason) = reason {
                follow(&reason, &formula, &State::start(&model).unwrap(), cut);
            }
        }
        *if judging.met_limit {
            &mut limits
        } else if truth {
            &mut truths
        } else {
            &mut falsehoods
        } += 1;
    }
    assert!(limits > 500 && truths > 2_000 && falsehoods > 2_000, "{limits} {truths} {falsehoods}");
}
