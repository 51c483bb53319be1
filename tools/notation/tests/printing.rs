//! What is printed reads as the same trees.

mod support;

use notation::print;
use notation::syntax::{Formula, Process, Term};
use support::{finding, trees, Random};

fn there_and_back(first: &Process, second: &Process, formula: &Formula) {
    let line = format!(
        "first {} second {} formula {}",
        print::process(first),
        print::process(second),
        print::formula(formula)
    );
    for text in [line, print::finding(first, second, formula)] {
        let read = notation::reading(&text);
        assert_eq!((read.faults, read.warnings), (vec![], vec![]), "{text}");
        let read = trees(&finding(&text));
        assert_eq!((&read.0, &read.1, &read.2), (first, second, formula), "{text}");
    }
}

/// All processes of at most `depth` nodes on a path, with one choice of terms for each kind.
fn processes(bound: usize, depth: usize) -> Vec<Process> {
    let mut all = vec![Process::Nil];
    if depth < 2 {
        return all;
    }
    let term = || if bound > 0 { Term::Variable(bound - 1) } else { Term::Name(16_383) };
    let (same, deeper) = (processes(bound, depth - 1), processes(bound + 1, depth - 1));
    for then in deeper {
        all.push(Process::New(Box::new(then.clone())));
        all.push(Process::Input { channel: term(), then: Box::new(then.clone()) });
        all.push(Process::Let { value: term(), then: Box::new(then) });
    }
    for then in &same {
        all.push(Process::Repl(Box::new(then.clone())));
        all.push(Process::Output { channel: Term::Name(0), message: term(), then: Box::new(then.clone()) });
        for other in &same {
            let (then, otherwise) = (Box::new(then.clone()), Box::new(other.clone()));
            all.push(Process::Par(then.clone(), otherwise.clone()));
            all.push(Process::If { left: term(), right: Term::Name(1), then, otherwise });
        }
    }
    all
}

/// Formulas of at most `depth` nodes on a path, with one choice of terms for each kind, and two equations.
fn formulas(bound: usize, depth: usize) -> Vec<Formula> {
    let term = || if bound > 0 { Term::Variable(bound - 1) } else { Term::Name(16_383) };
    let mut all = vec![Formula::Equal(Term::Name(0), Term::Name(0)), Formula::Equal(term(), Term::Name(1))];
    if depth < 2 {
        return all;
    }
    let (same, deeper) = (formulas(bound, depth - 1), formulas(bound + 1, depth - 1));
    all.extend(deeper.into_iter().map(|body| Formula::OutputStep { channel: term(), body: Box::new(body) }));
    for body in &same {
        all.push(Formula::Not(Box::new(body.clone())));
        all.push(Formula::SilentStep(Box::new(body.clone())));
        let (channel, message) = (Term::Name(0), term());
        all.push(Formula::InputStep { channel, message, body: Box::new(body.clone()) });
        all.extend(same.iter().map(|other| Formula::And(Box::new(body.clone()), Box::new(other.clone()))));
    }
    all
}

#[test]
fn small_processes() {
    let trivial = Formula::Equal(Term::Name(0), Term::Name(0));
    for process in processes(0, 3) {
        there_and_back(&process, &Process::Nil, &trivial);
    }
}

#[test]
fn small_formulas() {
    for formula in formulas(0, 4).into_iter().step_by(7) {
        there_and_back(&Process::Nil, &Process::Nil, &formula);
    }
}

#[test]
fn random_trees() {
    let mut random = Random(1);
    for _ in 0..1000 {
        let (process, formula) = (1 + random.below(9), 1 + random.below(9));
        there_and_back(&random.process(0, process), &random.process(0, 4), &random.formula(0, formula));
    }
}

/// The deepest trees within the rules: 64 process nodes, 48 formula nodes with 16 steps, and 8 term nodes on a path.
#[test]
fn deep_trees() {
    let term = (1..8).fold(Term::Name(0), |term, _| Term::Fst(Box::new(term)));
    let output = Process::Output { channel: term.clone(), message: term.clone(), then: Box::new(Process::Nil) };
    let equal = Formula::Equal(term.clone(), term);
    let around: [fn(Box<Process>) -> Process; 3] = [
        Process::Repl,
        |left| Process::Par(Box::new(Process::Repl(left)), Box::new(Process::Nil)),
        |then| Process::Repl(Box::new(Process::Par(Box::new(Process::Nil), then))),
    ];
    for wrap in around {
        let process = (0..31).fold(output.clone(), |process, _| wrap(Box::new(process)));
        there_and_back(&process, &process, &equal);
    }
    let formula = (0..16).fold(equal, |body, _| {
        let step = Formula::SilentStep(Box::new(body));
        Formula::And(Box::new(step), Box::new(Formula::Equal(Term::Name(0), Term::Name(0))))
    });
    let formula = (0..15).fold(formula, |body, _| Formula::Not(Box::new(body)));
    there_and_back(&Process::Nil, &Process::Nil, &formula);
}

#[test]
fn lines_stay_short() {
    let mut random = Random(2);
    for _ in 0..100 {
        let text = print::finding(&random.process(0, 7), &Process::Nil, &random.formula(0, 7));
        let longest = text.lines().map(str::len).max();
        assert!(longest < Some(200), "{text}");
    }
}

#[test]
fn what_it_looks_like() {
    let text = "first\n  new v0. (out(v0, 7) | in(v0, v1). repl out(1, pair(v1, v0)))\n\n\
                second\n  new _. new v1. in(v1, _)\n\n\
                formula\n  <out 0 _> [out 1 a1] (fst(a1) = 7 and snd(a1) != 7 or <in 1 a1> not true)\n";
    let (first, second, formula) = trees(&finding(text));
    assert_eq!(print::finding(&first, &second, &formula), text);
}
