//! A heredoc block, which is listed and not shown.

use puretakoi::Span;

/// A heredoc block of a script.
#[derive(Clone, Debug, PartialEq, Eq)]
pub struct Heredoc {
    /// Where its `<<<` stands.
    pub span: Span,
    /// Its label.
    pub label: Vec<u8>,
    /// The line of its closing label.
    pub last: u32,
    /// Whether it was read where the reading is a guess.
    pub is_guess: bool,
}
