//! The bytes of a file as text, or what they are instead; the lines of a text; and text as it is shown.

use crate::fault::Place;

/// The text that bytes are; a byte order mark before it is left off.
pub fn text(bytes: &[u8]) -> Result<&str, String> {
    if bytes.starts_with(&[0xff, 0xfe]) || bytes.starts_with(&[0xfe, 0xff]) {
        return Err("this is text in UTF-16; save it as UTF-8".to_string());
    }
    let bytes = bytes.strip_prefix(&[0xef, 0xbb, 0xbf]).unwrap_or(bytes);
    std::str::from_utf8(bytes).map_err(|error| {
        let (good, rest) = bytes.split_at(error.valid_up_to());
        let byte = rest.first().copied().unwrap_or(0);
        let place = end(std::str::from_utf8(good).unwrap_or_default());
        format!("{place}: the byte {byte:02x} is no text in UTF-8; is this a file of bytes, or saved otherwise?")
    })
}

/// The lines of a text, by whichever character ends them: a comment ends where an editor shows a new line.
pub fn lines(text: &str) -> Vec<&str> {
    let ends = |c: char| matches!(c, '\n' | '\r' | '\u{85}' | '\u{2028}' | '\u{2029}');
    let mut lines = Vec::new();
    let mut rest = text;
    while let Some(at) = rest.find(ends) {
        lines.push(&rest[..at]);
        let length =
            if rest[at..].starts_with("\r\n") { 2 } else { rest[at..].chars().next().map_or(1, char::len_utf8) };
        rest = &rest[at + length..];
    }
    lines.push(rest);
    lines
}

/// The place behind a text.
pub fn end(text: &str) -> Place {
    let lines = lines(text);
    Place { line: lines.len(), column: lines.last().map_or(0, |line| line.chars().count()) + 1 }
}

/// A text in one line, in which every character can be seen.
pub fn shown(text: &str) -> String {
    text.chars().map(|c| if is_unseen(c) { c.escape_unicode().to_string() } else { c.to_string() }).collect()
}

/// Characters that change what is seen around them, or cannot be seen.
pub fn is_unseen(c: char) -> bool {
    c.is_control()
        || matches!(c, '\u{ad}' | '\u{200b}'..='\u{200f}' | '\u{2028}'..='\u{202e}' | '\u{2060}'..='\u{206f}' | '\u{feff}')
}
