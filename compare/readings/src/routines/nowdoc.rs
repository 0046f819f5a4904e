//! The mode of a nowdoc: the label's line alone.

use cases::pieces::{BLOCK_PREFIXES, CLOSING_LINES, LINES, PROPERTY, SHORT_LABELS};
use cases::{Answer, Case, Routine};

use super::Reading;
use crate::text;

pub const READING: Reading = Reading {
    routine: Routine::Nowdoc,
    as_manual: false,
    proved,
    narrow: b"\n \tEea\r$",
    wide: b"\n \tE\r\\${}[->?a01478exu_n\x80",
    prefixes: BLOCK_PREFIXES,
    continuations: PROPERTY,
    calm: &[LINES],
    ending: &[CLOSING_LINES],
    closer: |label| [&b"\n"[..], label].concat(),
    labels: SHORT_LABELS,
    kinds: &[11, 12, 13],
    refusals: &[1, 4],
};

fn proved(case: &Case, end: bool) -> Answer {
    text::answer(5, text::label, case, end)
}
