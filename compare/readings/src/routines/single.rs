//! The reading of a string in single quotes.

use cases::pieces::{NO_LABEL, PREFIXES, PROPERTY};
use cases::{Answer, Case, Change, Routine};

use super::Reading;
use crate::text::{self, Ending, QUOTE};

pub const READING: Reading = Reading {
    routine: Routine::Single,
    as_manual: false,
    proved,
    narrow: b"'\\\"an\n$\x80",
    wide: b"'\\${}[->?a01478exu_\n\r\t \x80",
    prefixes: PREFIXES,
    continuations: PROPERTY,
    calm: &[&[b"a", b"\\\\", b"\\'", b"\\n", b"\n", b"\"", b"\\", b"\x80\x00", b"$a", b"{$", b"\\x41", b"\r\n"]],
    ending: &[&[b"'", b"'", b"\\", b"\\''"]],
    closer: |_| b"'".to_vec(),
    labels: NO_LABEL,
    kinds: &[17],
    refusals: &[1],
};

fn proved(case: &Case, end: bool) -> Answer {
    text::answer(0, ending, case, end)
}

fn ending(stop: u32) -> Option<Ending> {
    match stop {
        QUOTE => Some(Ending::Literal { kind: 17, change: Change::Keep }),
        _ => None,
    }
}
