//! The reading of a number.

use cases::pieces::NO_LABEL;
use cases::{Answer, Case, Change, Routine};

use super::Reading;
use crate::library::NUMBER;
use crate::text::{self, Ending};

pub const READING: Reading = Reading {
    routine: Routine::Number,
    as_manual: false,
    proved,
    narrow: b"01._eE+-xb",
    wide: b"0179_.eE+-xXbBoOaFg; \n",
    prefixes: &[b"", b"0", b"1.", b"1e", b"0x", b"1_"],
    continuations: &[b"0", b"+0"],
    calm: &[&[b"0", b"1", b"9", b"7", b"_1", b"_0", b"12", b"345"]],
    ending: &[&[
        b".", b".5", b"e5", b"E5", b"e+5", b"E-5", b"e", b"e+", b"__", b"_", b"x", b"xE", b"b1", b"o7", b"X_F", b"..",
        b";",
    ]],
    closer: |_| b";".to_vec(),
    labels: NO_LABEL,
    kinds: &[19, 20],
    refusals: &[],
};

fn proved(case: &Case, end: bool) -> Answer {
    text::answer(NUMBER, ending, case, end)
}

fn ending(kind: u32) -> Option<Ending> {
    let kind = match kind {
        0 => 19,
        1 => 20,
        _ => return None,
    };
    Some(Ending::Literal { kind, change: Change::Keep })
}
