//! The syntax file for Vim has the reserved words of the notation, each once, and no others.

use notation::lexer::RESERVED;

const SYNTAX: &str = concat!(env!("CARGO_MANIFEST_DIR"), "/../vim/syntax/finding.vim");

/// The words of all lines `syntax keyword GROUP WORD...`.
fn keywords(text: &str) -> Vec<&str> {
    text.lines()
        .filter_map(|line| line.strip_prefix("syntax keyword "))
        .flat_map(|line| line.split_whitespace().skip(1))
        .collect()
}

#[test]
fn its_keywords_are_the_reserved_words() {
    let text = std::fs::read_to_string(SYNTAX).unwrap();
    let (mut found, mut wanted) = (keywords(&text), RESERVED.to_vec());
    found.sort_unstable();
    wanted.sort_unstable();
    assert_eq!(found, wanted);
}
