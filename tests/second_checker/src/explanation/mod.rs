//! Why a formula is true or false of a model, and where judging first meets a limit (document 01, "Steps" and "Judging
//! and its count").
//!
//! Both are found by going through a judgement once more, visit by visit and without short cuts. They count no visits:
//! whoever asks has judged before, within a budget. Places in the model and the formula are told by address, so the
//! trees have to stay where they are while an explanation is read.

mod limits;
mod possible;
mod reasons;
mod steps;
mod telling;

pub use limits::{first_limit, Excess, Met};
pub use reasons::{Cut, Reason, Tried};
pub use steps::Step;
pub use telling::reason;
