//! Every public name of a model or a formula, with its role there.

use second_checker::syntax::{Formula, Process, Term};

/// In a channel of a model, in another of its terms, or in a recipe.
#[derive(Clone, Copy, Debug, PartialEq, Eq)]
pub enum Role {
    Channel,
    Message,
    Recipe,
}

impl Role {
    pub const ALL: [Role; 3] = [Role::Channel, Role::Message, Role::Recipe];

    pub fn title(self) -> &'static str {
        match self {
            Role::Channel => "channels",
            Role::Message => "messages",
            Role::Recipe => "recipes",
        }
    }
}

/// Hands each name of a model to `each`.
pub fn of_process(process: &mut Process, each: &mut impl FnMut(Role, &mut u16)) {
    match process {
        Process::Nil => {}
        Process::New(then) | Process::Repl(then) => of_process(then, each),
        Process::Output { channel, message, then } => {
            of_term(Role::Channel, channel, each);
            of_term(Role::Message, message, each);
            of_process(then, each);
        }
        Process::Input { channel, then } => {
            of_term(Role::Channel, channel, each);
            of_process(then, each);
        }
        Process::Let { value, then } => {
            of_term(Role::Message, value, each);
            of_process(then, each);
        }
        Process::If { left, right, then, otherwise } => {
            of_term(Role::Message, left, each);
            of_term(Role::Message, right, each);
            of_process(then, each);
            of_process(otherwise, each);
        }
        Process::Par(left, right) => {
            of_process(left, each);
            of_process(right, each);
        }
    }
}

/// Hands each name of a formula to `each`.
pub fn of_formula(formula: &mut Formula, each: &mut impl FnMut(Role, &mut u16)) {
    match formula {
        Formula::Equal(left, right) => {
            of_term(Role::Recipe, left, each);
            of_term(Role::Recipe, right, each);
        }
        Formula::Not(body) | Formula::SilentStep(body) => of_formula(body, each),
        Formula::And(left, right) => {
            of_formula(left, each);
            of_formula(right, each);
        }
        Formula::OutputStep { channel, body } => {
            of_term(Role::Recipe, channel, each);
            of_formula(body, each);
        }
        Formula::InputStep { channel, message, body } => {
            of_term(Role::Recipe, channel, each);
            of_term(Role::Recipe, message, each);
            of_formula(body, each);
        }
    }
}

fn of_term(place: Role, term: &mut Term, each: &mut impl FnMut(Role, &mut u16)) {
    match term {
        Term::Name(name) => each(place, name),
        Term::Variable(_) => {}
        Term::Fst(part) | Term::Snd(part) => of_term(place, part, each),
        Term::Pair(left, right) | Term::Enc(left, right) | Term::Dec(left, right) | Term::Mac(left, right) => {
            of_term(place, left, each);
            of_term(place, right, each);
        }
    }
}
