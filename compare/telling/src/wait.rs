//! Refusal 6, by demand 3 itself: a part waits exactly when two continuations of it come to different outcomes.

use cases::Function;

use crate::outcome::{Outcome, Text};

/// Each byte at which something is decided.
const BYTES: &[u8] = b"aeEpx017_.+->?[]{}$\\'\"`<\n\r \t=;/*#\x80";

/// What settles a part that one byte does not.
const LONGER: [&[u8]; 31] = [
    b"?php", b"php", b"hp", b"?=", b"<?", b"->a", b">a", b"?->a", b"a}", b"a[", b"$a", b"{$a", b"<<E\n", b"<E\n",
    b"E\n", b"'E'\n", b"'E'\r\n", b"E'\n", b"E'\r\n", b"'\n", b"'\r\n", b"\r\n", b"41}", b"{41}", b"u{41}", b"+1",
    b"-1", b"e1", b".1", b"_1", b"*/",
];

/// Pairs of these are tried after what may be a number.
const NUMBER_BYTES: &[u8] = b"1._e+x";

impl Text {
    /// What the text comes to with more announced; none where it must wait.
    pub fn part_outcome(&mut self, function: Function) -> Option<Outcome> {
        let length = self.case.source.len();
        let outcome = self.outcome();
        let apart = self.any_continuation(function, length, &outcome);
        self.case.source.truncate(length);
        if apart {
            None
        } else {
            Some(outcome)
        }
    }

    fn any_continuation(&mut self, function: Function, length: usize, outcome: &Outcome) -> bool {
        let label = self.case.label.clone();
        let may_be_number = function == Function::ReadNumber || self.case.source.first().map_or(false, is_number_start);
        let mut differs = |more: &[&[u8]]| {
            self.case.source.truncate(length);
            more.iter().for_each(|bytes| self.case.source.extend_from_slice(bytes));
            self.outcome() != *outcome
        };
        BYTES.iter().any(|byte| differs(&[&[*byte]]))
            || LONGER.iter().any(|more| differs(&[more]))
            || (0..label.len()).any(|start| differs(&[&label[start..]]) || differs(&[b"\n", &label[start..]]))
            || (may_be_number && pairs(NUMBER_BYTES).any(|pair| differs(&[&pair])))
    }
}

fn is_number_start(byte: &u8) -> bool {
    byte.is_ascii_digit() || *byte == b'.'
}

fn pairs(bytes: &[u8]) -> impl Iterator<Item = [u8; 2]> + '_ {
    bytes.iter().flat_map(move |first| bytes.iter().map(move |second| [*first, *second]))
}
