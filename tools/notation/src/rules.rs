//! The rules of the reader in words, and the limits on a tree, told by the places of its text (document 01, "Turned back
//! for the input", 1 and 7).

use crate::fault::{Cause, Fault, Place, Within};
use crate::slice::Slice;
use crate::tree::{Sort, Tree};

pub const LONGEST: usize = 4096;
pub const TERM_NODES: usize = 8;
pub const PROCESS_NODES: usize = 64;
pub const FORMULA_NODES: usize = 48;
pub const STEP_FORMULAS: usize = 16;
pub const VARIABLES: usize = 12;

/// What is wrong with a slice, by the number of the rule that it breaks.
pub fn in_words(rule: u32) -> &'static str {
    match rule {
        1 => "it has more than 4,096 bytes",
        2 => "the bytes end early",
        3 => "a number is not in its one form",
        4 => "no such kind is listed",
        // No bytes break it.
        5 => "a public name is over 16,383",
        6 => "a variable or an alias is not in scope",
        7 => "it is nested too deep",
        8 => "bytes are left over",
        _ => "there is no such rule",
    }
}

/// What rule 7 says of a node that is one too many, in the order in which the limits are asked for.
pub const TOO_DEEP: [&str; 5] = [
    "9 term nodes on one path, and 8 are the most",
    "65 process nodes on one path, and 64 are the most",
    "a thirteenth variable in scope, and 12 are the most",
    "49 formula nodes on one path, and 48 are the most",
    "17 step formulas on one path, and 16 are the most",
];

/// Where a tree is nested too deep. What is below such a node is not looked at.
pub fn too_deep(tree: &Tree) -> Vec<Fault> {
    let mut faults = Vec::new();
    below(tree, Around::default(), &mut faults);
    faults
}

/// Where a slice becomes too long; `what` is what it holds.
pub fn too_long(slice: &Slice, what: &str) -> Option<Fault> {
    let node = slice.node_at(LONGEST).filter(|_| slice.bytes.len() > LONGEST)?;
    let message = format!("{what} takes {} bytes, and {LONGEST} are the most (rule 1)", slice.bytes.len());
    Some(broken(1, node.place, &node.within, message))
}

/// The nodes on the path to a node: of its own sort, step formulas, and variables in scope.
#[derive(Clone, Copy, Default)]
struct Around {
    nodes: usize,
    steps: usize,
    variables: usize,
}

fn below(tree: &Tree, around: Around, faults: &mut Vec<Fault>) {
    if let Some(what) = limit(tree, around) {
        return faults.push(broken(7, tree.place, &tree.within, format!("nested too deep: {what} (rule 7)")));
    }
    let inside = Around {
        nodes: around.nodes + 1,
        steps: around.steps + usize::from(tree.kind.is_step()),
        variables: around.variables + usize::from(tree.kind.binds_variable()),
    };
    for part in &tree.parts {
        let starts_anew = part.kind.sort() != tree.kind.sort();
        below(part, if starts_anew { Around::default() } else { inside }, faults);
    }
}

fn limit(tree: &Tree, around: Around) -> Option<&'static str> {
    let met = match tree.kind.sort() {
        Sort::Term => [(0, around.nodes == TERM_NODES), (0, false)],
        Sort::Process => {
            [(1, around.nodes == PROCESS_NODES), (2, tree.kind.binds_variable() && around.variables == VARIABLES)]
        }
        Sort::Formula => {
            [(3, around.nodes == FORMULA_NODES), (4, tree.kind.is_step() && around.steps == STEP_FORMULAS)]
        }
    };
    met.iter().find(|(_, is_met)| *is_met).map(|(which, _)| TOO_DEEP[*which])
}

fn broken(rule: u32, place: Place, within: &Within, message: String) -> Fault {
    Fault { place, cause: Cause::Rule(rule), message, within: within.clone() }
}
