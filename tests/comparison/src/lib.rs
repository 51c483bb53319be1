//! The library's exported function, compared with the second checker on random findings.

pub mod compare;
pub mod encoding;
pub mod generator;
pub mod library;
pub mod names;
pub mod random;
pub mod roles;
pub mod run;
pub mod shares;
