//! Work in a thread of its own, while the time is shown on a terminal.

use crate::progress::{Progress, EVERY};
use std::fmt;
use std::path::Path;
use std::sync::mpsc::{self, RecvTimeoutError};
use std::thread;
use std::time::{Duration, Instant};

/// Stack for the work: many times as much as was ever measured.
const STACK: usize = 64 << 20;

/// Why work has come to nothing.
#[derive(Clone, Debug, PartialEq, Eq)]
pub enum Stopped {
    /// It takes longer than it may.
    Late(Duration),
    /// It has not ended well, or not begun.
    Failed(String),
}

impl fmt::Display for Stopped {
    fn fmt(&self, f: &mut fmt::Formatter<'_>) -> fmt::Result {
        match self {
            Stopped::Late(patience) => write!(f, "it takes more than {} s", patience.as_secs()),
            Stopped::Failed(what) => write!(f, "{what}"),
        }
    }
}

/// Does the work, in so much time if that is given. Work that is late goes on until the program ends.
pub fn run<T: Send + 'static>(
    folder: &Path,
    patience: Option<Duration>,
    work: impl FnOnce() -> T + Send + 'static,
) -> Result<T, Stopped> {
    let (sender, receiver) = mpsc::channel();
    let start = Instant::now();
    let started = thread::Builder::new().stack_size(STACK).spawn(move || sender.send(work()));
    started.map_err(|error| Stopped::Failed(format!("no thread can be started: {error}")))?;
    let mut progress = Progress::new(folder);
    loop {
        let left = patience.map_or(EVERY, |patience| patience.saturating_sub(start.elapsed()).min(EVERY));
        match receiver.recv_timeout(left) {
            Ok(done) => return Ok(done),
            Err(RecvTimeoutError::Disconnected) => return Err(Stopped::Failed("it has not ended well".to_string())),
            Err(RecvTimeoutError::Timeout) => match patience {
                Some(patience) if start.elapsed() >= patience => return Err(Stopped::Late(patience)),
                _ => progress.show(),
            },
        }
    }
}
