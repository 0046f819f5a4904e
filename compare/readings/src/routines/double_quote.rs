//! The mode between two interpolations of a string in double quotes.

use cases::pieces::{ESCAPES, INTERPOLATIONS, NO_LABEL, OCTALS, PREFIXES, PROPERTY};
use cases::{Answer, Case, Change, Frame, Routine};

use super::Reading;
use crate::text::{self, Ending, QUOTE};

pub const READING: Reading = Reading {
    routine: Routine::DoubleQuote,
    as_manual: false,
    proved,
    narrow: b"\"\\${}[->?a7xu_",
    wide: b"\"\\${}[->?a01478exu_\n\r\t \x80",
    prefixes: PREFIXES,
    continuations: PROPERTY,
    calm: &[ESCAPES],
    ending: &[INTERPOLATIONS, OCTALS],
    closer: |_| b"\"".to_vec(),
    labels: NO_LABEL,
    kinds: &[6, 7, 8, 10],
    refusals: &[1, 2, 3],
};

/// The same with octal escapes as the manual has them.
pub const MANUAL: Reading = Reading {
    as_manual: true,
    proved: |case, end| text::answer(7, ending, case, end),
    narrow: b"\"\\${[->?a4017",
    calm: &[ESCAPES, OCTALS],
    ending: &[INTERPOLATIONS],
    refusals: &[1, 2],
    ..READING
};

fn proved(case: &Case, end: bool) -> Answer {
    text::answer(2, ending, case, end)
}

fn ending(stop: u32) -> Option<Ending> {
    match stop {
        QUOTE => Some(Ending::Token { kind: 8, change: Change::Swap(Frame::Scripting) }),
        other => text::interpolation(other),
    }
}
