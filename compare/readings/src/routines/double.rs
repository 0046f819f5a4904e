//! The reading of a string in double quotes up to its end, or up to an interpolation, which `double_quote` reads.

use cases::pieces::{ESCAPES, INTERPOLATIONS, NO_LABEL, OCTALS, PREFIXES, PROPERTY};
use cases::{Answer, Case, Change, Frame, Routine};

use super::Reading;
use crate::text::{self, Ending, INTERPOLATION, QUOTE};

pub const READING: Reading = Reading {
    routine: Routine::Double,
    as_manual: false,
    proved,
    narrow: b"\"\\${}a1478xun",
    wide: b"\"\\${}[->?a01478exu_\n\r\t \x80",
    prefixes: PREFIXES,
    continuations: PROPERTY,
    calm: &[ESCAPES],
    ending: &[INTERPOLATIONS, OCTALS],
    closer: |_| b"\"".to_vec(),
    labels: NO_LABEL,
    kinds: &[18, 5],
    refusals: &[1, 2, 3],
};

/// The same with octal escapes as the manual has them.
pub const MANUAL: Reading = Reading {
    as_manual: true,
    proved: |case, end| text::answer(6, ending, case, end),
    narrow: b"\"\\${a40178n",
    calm: &[ESCAPES, OCTALS],
    ending: &[INTERPOLATIONS],
    refusals: &[1, 2],
    ..READING
};

fn proved(case: &Case, end: bool) -> Answer {
    text::answer(1, ending, case, end)
}

fn ending(stop: u32) -> Option<Ending> {
    match stop {
        QUOTE => Some(Ending::Literal { kind: 18, change: Change::Keep }),
        INTERPOLATION => Some(Ending::Literal { kind: 5, change: Change::Swap(Frame::DoubleQuote) }),
        _ => None,
    }
}
