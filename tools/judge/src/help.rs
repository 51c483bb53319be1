//! The texts of `--help` and `--version`, and the usage.

/// What `--help` prints.
pub const HELP: &str = include_str!("help.txt");

/// What `--version` prints.
pub const VERSION: &str = concat!("judge ", env!("CARGO_PKG_VERSION"), "\n");

/// The usage: the first paragraph of the help.
pub fn usage() -> &'static str {
    HELP.split("\n\n").next().unwrap_or(HELP)
}
