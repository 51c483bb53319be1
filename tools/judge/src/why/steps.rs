//! A step in words: who acts, and what is sent or taken.

use super::words::Words;
use second_checker::explanation::Step;
use second_checker::syntax::Process;

/// `alias` is the word for what an output sends, if it has one; `taken` is whether to tell what an input takes.
pub fn told(step: &Step, alias: Option<&str>, taken: bool, words: &mut Words) -> String {
    match step {
        Step::Output { then, message, new, .. } => {
            let place = place(words, then, *new);
            let what = alias.filter(|word| *word != "_").map_or("it sends".to_string(), |word| format!("{word} is"));
            format!("the output at {place}: {what} {}", words.message(message))
        }
        Step::Input { then, message, new, .. } => {
            let place = place(words, then, *new);
            let takes = if taken { format!(": it takes {}", words.message(message)) } else { String::new() };
            format!("the input at {place}{takes}")
        }
        Step::Silent { output, input, channel, message } => {
            let (output, input) = (words.places.before(output), words.places.before(input));
            let (message, channel) = (words.message(message), words.message(channel));
            format!("the output at {output} and the input at {input}: {message} on {channel}")
        }
    }
}

fn place(words: &Words, then: &Process, new: bool) -> String {
    format!("{}{}", words.places.before(then), if new { ", in a new copy" } else { "" })
}
