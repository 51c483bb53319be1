//! How long one finding has been judged for, shown on a terminal and nowhere else.

use std::io::{IsTerminal, Write};
use std::path::Path;
use std::time::{Duration, Instant};

/// How often the time is shown.
pub const EVERY: Duration = Duration::from_secs(1);

/// So many characters of a folder's name are shown, so that the line stays one.
const SHOWN: usize = 40;

/// One line on standard error, written over itself and cleared at the end.
pub struct Progress {
    folder: String,
    start: Instant,
    terminal: bool,
    shown: bool,
}

impl Progress {
    pub fn new(folder: &Path) -> Progress {
        let terminal = std::io::stderr().is_terminal();
        Progress { folder: end_of(&folder.display().to_string()), start: Instant::now(), terminal, shown: false }
    }

    /// Shows the time that has passed.
    pub fn show(&mut self) {
        let line = format!("judge: judging {}, {} s", self.folder, self.start.elapsed().as_secs());
        self.write(&format!("\r{line}\x1b[K"));
        self.shown = true;
    }

    fn write(&self, text: &str) {
        if self.terminal {
            let mut stream = std::io::stderr();
            let _ = stream.write_all(text.as_bytes()).and_then(|()| stream.flush());
        }
    }
}

impl Drop for Progress {
    fn drop(&mut self) {
        if self.shown {
            self.write("\r\x1b[K");
        }
    }
}

fn end_of(name: &str) -> String {
    let length = name.chars().count();
    match length > SHOWN {
        true => format!("...{}", name.chars().skip(length - SHOWN).collect::<String>()),
        false => name.to_string(),
    }
}
