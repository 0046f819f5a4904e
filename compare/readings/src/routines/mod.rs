//! The routines that are compared, a file each: how the proved answer becomes tokens, and which bytes to try.

mod double;
mod double_quote;
mod heredoc;
mod nowdoc;
mod number;
mod shell_exec;
mod single;

use cases::pieces::Pieces;
use cases::{Answer, Case, Routine};
use telling::octals::run_as_manual;

/// One routine.
pub struct Reading {
    pub routine: Routine,
    /// Octal escapes are read as the manual has them, and not as the Rust.
    pub as_manual: bool,
    /// The proved library's answer to a case. Where the end is not announced, a wait is refusal 6.
    pub proved: fn(case: &Case, end: bool) -> Answer,
    /// Few bytes, for texts of many.
    pub narrow: &'static [u8],
    /// All bytes at which something is decided, for texts of few.
    pub wide: &'static [u8],
    /// What every pair of bytes is tried after.
    pub prefixes: Pieces,
    /// Continuations of a part, beside those of one and two bytes and of the label's rest.
    pub continuations: Pieces,
    /// Pieces of text that end nothing, and pieces that may end the text.
    pub calm: &'static [Pieces],
    pub ending: &'static [Pieces],
    /// Ends a text; for a block the label's line.
    pub closer: fn(label: &[u8]) -> Vec<u8>,
    /// The labels that short texts are tried with: an empty one for a routine without.
    pub labels: Pieces,
    /// The kinds that its last token may have, and the refusals it may give: random texts must meet them all.
    pub kinds: &'static [u32],
    pub refusals: &'static [u32],
}

impl Reading {
    pub fn name(&self) -> String {
        format!("{}{}", self.routine.name(), if self.as_manual { " with the manual's octal escapes" } else { "" })
    }

    /// Replaces the answer by the Rust's.
    pub fn expected(&self, case: &Case, answer: &mut Answer) {
        match self.as_manual {
            true => run_as_manual(&mut case.clone(), answer),
            false => oracle::run(case, answer),
        }
    }

    pub fn has_label(&self) -> bool {
        !self.labels[0].is_empty()
    }
}

pub const READINGS: [&Reading; 10] = [
    &single::READING,
    &double::READING,
    &double_quote::READING,
    &shell_exec::READING,
    &heredoc::READING,
    &nowdoc::READING,
    &number::READING,
    &double::MANUAL,
    &double_quote::MANUAL,
    &heredoc::MANUAL,
];
