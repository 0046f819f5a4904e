//! What a look-up gives: the number that comes back, and what the slice for what is found holds then. As text one of
//! `record NUMBER LOOKS`, `none LOOKS`, `refused NUMBER`; the first two with one word more, the end, where the slice
//! has a place for it.

use crate::call::answer_pattern;
use crate::given::changes;
use crate::lookup::{Lookup, FOUND};

/// Everything that can be seen of a look-up when it is over, but for the list, which is only read.
#[derive(Clone, Debug, PartialEq, Eq)]
pub struct Seen {
    pub number: u32,
    pub found: Vec<u32>,
}

/// What a look-up comes to, told; with the look-up it says all of what is seen. The end is there where the slice has a
/// place for it.
#[derive(Clone, Copy, Debug, PartialEq, Eq)]
pub enum Found {
    /// Nothing is written.
    Refused(u32),
    Nothing {
        looks: u32,
        end: Option<u32>,
    },
    /// A record's number, from 0.
    Record {
        number: u32,
        looks: u32,
        end: Option<u32>,
    },
}

impl Seen {
    /// The slice as it is before a look-up.
    pub fn before(lookup: &Lookup) -> Seen {
        Seen { number: 0, found: (0..lookup.found).map(answer_pattern).collect() }
    }

    /// The text form where one fits, else `odd NUMBER` and every place that is not as before, with what it holds.
    pub fn write(&self, lookup: &Lookup, out: &mut Vec<u8>) {
        match Found::of(lookup, self) {
            Some(found) => found.write(out),
            None => {
                let changed = changes(" found", &Seen::before(lookup).found, &self.found);
                out.extend_from_slice(format!("odd {}{}", self.number, changed).as_bytes());
            }
        }
    }
}

impl Found {
    /// All that is seen of a look-up that comes to this.
    pub fn seen(self, lookup: &Lookup) -> Seen {
        let mut seen = Seen::before(lookup);
        let (numbers, end) = match self {
            Found::Refused(number) => return Seen { number, ..seen },
            Found::Nothing { looks, end } => ([0, 0, looks], end),
            Found::Record { number, looks, end } => ([1, number, looks], end),
        };
        seen.found[..FOUND].copy_from_slice(&numbers);
        if let Some(end) = end {
            seen.found[FOUND] = end;
        }
        seen
    }

    /// What a look-up came to, if what is seen has one of the forms.
    pub fn of(lookup: &Lookup, seen: &Seen) -> Option<Found> {
        let end = seen.found.get(FOUND).copied();
        let found = match (seen.number, &seen.found[..]) {
            (0, [0, _, looks, ..]) => Found::Nothing { looks: *looks, end },
            (0, [1, number, looks, ..]) => Found::Record { number: *number, looks: *looks, end },
            (0, _) => return None,
            (number, _) => Found::Refused(number),
        };
        (found.seen(lookup) == *seen).then(|| found)
    }

    /// The record that was found, if any.
    pub fn record(self) -> Option<usize> {
        match self {
            Found::Record { number, .. } => Some(number as usize),
            Found::Refused(_) | Found::Nothing { .. } => None,
        }
    }

    /// How many records were looked at, if the look-up was not refused.
    pub fn looks(self) -> Option<u32> {
        match self {
            Found::Refused(_) => None,
            Found::Nothing { looks, .. } | Found::Record { looks, .. } => Some(looks),
        }
    }

    /// The end, where it was written.
    pub fn end(self) -> Option<u32> {
        match self {
            Found::Refused(_) => None,
            Found::Nothing { end, .. } | Found::Record { end, .. } => end,
        }
    }

    /// Appends the text, without a line break.
    pub fn write(self, out: &mut Vec<u8>) {
        let text = match self {
            Found::Refused(number) => format!("refused {}", number),
            Found::Nothing { looks, .. } => format!("none {}", looks),
            Found::Record { number, looks, .. } => format!("record {} {}", number, looks),
        };
        out.extend_from_slice(text.as_bytes());
        if let Some(end) = self.end() {
            out.extend_from_slice(format!(" {}", end).as_bytes());
        }
    }
}
