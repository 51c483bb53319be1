//! A second checker of findings, written from document 01 and the papers alone: syntax trees, reference-counted
//! messages, plain recursion. It shares nothing with the library but the rules.

pub mod explanation;
pub mod judging;
pub mod messages;
pub mod reading;
pub mod states;
pub mod steps;
pub mod syntax;
pub mod verdict;
