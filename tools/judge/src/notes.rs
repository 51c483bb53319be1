//! What is said beside the answers, on standard error.

use notation::text::shown;
use std::io::Write;

/// Says a line. Where standard error cannot be written to, there is nobody to tell.
pub fn say(message: &str) {
    let _ = writeln!(std::io::stderr(), "judge: {}", shown(message));
}

/// Says what is wrong with a call, and behind it how it is called, if that is given.
pub fn say_wrong(message: &str) {
    let (message, usage) = message.split_once('\n').unwrap_or((message, ""));
    say(message);
    for line in usage.lines() {
        let _ = writeln!(std::io::stderr(), "{line}");
    }
}
