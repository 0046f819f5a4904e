//! Finds the string that has a quote too many, if one may have.

use puretakoi::{kinds, limits, records, Choices, End, Progress, Session, Span};

use crate::reading::php::{is_part_of_a_word, literal_end, span_at};

/// A string that may have a quote too many: where it opens, and where it ends.
#[derive(Clone, Copy, Debug, PartialEq, Eq)]
pub struct Suspect {
    /// Its first quote.
    pub opening: Span,
    /// The place behind its last quote.
    pub end: Span,
}

/// The first quoted literal before a position that a word or a quote follows at once, as in no script that PHP takes.
/// The script is read by these choices.
pub fn suspect(script: &[u8], before: u32, choices: Choices) -> Option<Suspect> {
    let (mut list, mut pool) = (vec![0; 8 * limits::MOST_TOKENS], vec![0; limits::MOST_BYTES]);
    let mut session = Session::fresh(choices);
    let front = script.get(..limits::MOST_BYTES).unwrap_or(script);
    while session.walk(front, End::Announced, u32::MAX, &mut list, &mut pool) == Ok(Progress::Done) {}
    let literals = records(&list).take(session.tokens() as usize).filter(|record| {
        let is_literal = [kinds::LITERAL_SINGLE_QUOTED_STRING, kinds::LITERAL_DOUBLE_QUOTED_STRING];
        is_literal.contains(&record.kind) && record.span.position < before
    });
    let found = literals.map(|record| record.span).find_map(|opening| {
        let end = literal_end(front, opening.position as usize)?;
        let is_odd = |byte: &u8| is_part_of_a_word(*byte) || b"'\"".contains(byte);
        front.get(end).filter(|byte| is_odd(byte)).map(|_| Suspect { opening, end: span_at(front, end) })
    });
    found
}
