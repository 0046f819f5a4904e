//! The mode of a heredoc: escapes, interpolations, and the label's line.

use cases::pieces::{BLOCK_PREFIXES, CLOSING_LINES, ESCAPES, INTERPOLATIONS, LINES, OCTALS, PROPERTY, SHORT_LABELS};
use cases::{Answer, Case, Routine};

use super::Reading;
use crate::text::{self, Ending};

pub const READING: Reading = Reading {
    routine: Routine::Heredoc,
    as_manual: false,
    proved,
    narrow: b"\n \tE\\${[->?an1",
    wide: b"\n \tE\r\\${}[->?a01478exu_n\x80",
    prefixes: BLOCK_PREFIXES,
    continuations: PROPERTY,
    calm: &[LINES, ESCAPES],
    ending: &[CLOSING_LINES, INTERPOLATIONS, OCTALS],
    closer: |label| [&b"\n"[..], label].concat(),
    labels: SHORT_LABELS,
    kinds: &[6, 7, 10, 11, 12, 13],
    refusals: &[1, 2, 3, 4],
};

/// The same with octal escapes as the manual has them.
pub const MANUAL: Reading = Reading {
    as_manual: true,
    proved: |case, end| text::answer(8, ending, case, end),
    narrow: b"\n E\\${[->?a412",
    calm: &[LINES, ESCAPES, OCTALS],
    ending: &[CLOSING_LINES, INTERPOLATIONS],
    refusals: &[1, 2, 4],
    ..READING
};

fn proved(case: &Case, end: bool) -> Answer {
    text::answer(4, ending, case, end)
}

fn ending(stop: u32) -> Option<Ending> {
    text::label(stop).or_else(|| text::interpolation(stop))
}
