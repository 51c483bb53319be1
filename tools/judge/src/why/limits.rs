//! Where judging met a limit: which one, how far over, and after which steps.

use super::places::Places;
use super::steps;
use super::words::Words;
use second_checker::explanation::{Excess, Met};
use second_checker::messages::NODES;
use second_checker::states::{BOUND_NODES, PRIVATE_NAMES, THREADS};

/// The lines on a limit that was met; `model` is which model it is.
pub fn told(model: &str, met: &Met, words: &mut Words, formula: &Places) -> Vec<String> {
    let after = match met.steps.len() {
        0 => "at the start state".to_string(),
        1 => "after one step".to_string(),
        steps => format!("after {steps} steps"),
    };
    let mut lines = vec![format!("Judging the formula at {model} meets a limit {after}:")];
    for (number, step) in met.steps.iter().enumerate() {
        lines.push(format!("  {}. {}", number + 1, steps::told(step, None, true, words)));
    }
    lines.extend(met.excess.iter().map(|excess| format!("  {}.", over(excess, met.recipe, words.places, formula))));
    lines
}

fn over(excess: &Excess, recipe: bool, model: &Places, formula: &Places) -> String {
    match excess {
        Excess::Threads(threads) => format!("The state has {threads} threads, and {THREADS} are the most"),
        Excess::PrivateNames(names) => {
            format!("{names} private names are made on the way to the state, and {PRIVATE_NAMES} are the most")
        }
        Excess::Nodes(nodes) => {
            format!("The bound messages and aliases of the state have {nodes} nodes, and {BOUND_NODES} are the most")
        }
        Excess::Message { nodes, term } => {
            let (what, places) = if recipe { ("recipe", formula) } else { ("term", model) };
            let place = places.term(*term).unwrap_or("an unknown place".to_string());
            format!("The {what} at {place} gives a message of {nodes} nodes, and {NODES} are the most")
        }
    }
}
