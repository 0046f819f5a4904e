//! The mode between backticks: interpolations and no escapes.

use cases::pieces::{ESCAPES, INTERPOLATIONS, NO_LABEL, PREFIXES, PROPERTY};
use cases::{Answer, Case, Change, Frame, Routine};

use super::Reading;
use crate::text::{self, Ending, QUOTE};

pub const READING: Reading = Reading {
    routine: Routine::ShellExec,
    as_manual: false,
    proved,
    narrow: b"`\\${}[->?a0\n",
    wide: b"`\\${}[->?a01478exu_\n\r\t \x80",
    prefixes: PREFIXES,
    continuations: PROPERTY,
    calm: &[ESCAPES],
    ending: &[INTERPOLATIONS],
    closer: |_| b"`".to_vec(),
    labels: NO_LABEL,
    kinds: &[6, 7, 9, 10],
    refusals: &[1],
};

fn proved(case: &Case, end: bool) -> Answer {
    text::answer(3, ending, case, end)
}

fn ending(stop: u32) -> Option<Ending> {
    match stop {
        QUOTE => Some(Ending::Token { kind: 9, change: Change::Swap(Frame::Scripting) }),
        other => text::interpolation(other),
    }
}
