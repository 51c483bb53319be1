//! Findings in the readable notation of `docs/NOTATION.md`, and their bytes.

pub mod arguments;
pub mod decoding;
pub mod fault;
pub mod folder;
pub mod lexer;
mod parser;
pub mod print;
pub mod rules;
mod scope;
pub mod slice;
pub mod syntax;
pub mod text;
pub mod tree;
pub mod writing;

pub use parser::findings::{read, reading, Finding, Reading};
