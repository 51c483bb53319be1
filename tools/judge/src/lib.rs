//! The program `judge`: judges the findings in folders, and says what each answer means.

pub mod answer_line;
pub mod arguments;
pub mod help;
pub mod judging;
pub mod meaning;
pub mod notes;
pub mod progress;
pub mod refusals;
pub mod report;
pub mod summary;
pub mod timed;
pub mod why;
