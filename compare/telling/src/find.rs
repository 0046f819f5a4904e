//! Which record is under the finger (document 02, P3), told twice: by the trail of the fixed search, which holds on any
//! list, and by a look at every record, which must come to the same on a list whose positions never fall. Where four
//! numbers are lent, the end of the record comes with it (P4).

use cases::call::{RECORD, RECORD_POSITION};
use cases::lookup::{FOUND, FOUND_ENDED};
use cases::{Found, Lookup};

use crate::session::MOST_TOKENS;

/// What the look-up comes to: its trail has as many records as there are looks, and the last of them at or before the
/// byte is found.
pub fn found(lookup: &Lookup) -> Found {
    if lookup.found < FOUND {
        return Found::Refused(10);
    }
    if lookup.places() > MOST_TOKENS {
        return Found::Refused(11);
    }
    if lookup.count > lookup.places() {
        return Found::Refused(12);
    }
    let trail = trail(lookup);
    let looks = trail.len() as u32;
    let told = |end: u32| (lookup.found >= FOUND_ENDED).then(|| end);
    match trail.iter().rfind(|record| is_reached(lookup.position(**record), lookup.byte)) {
        None => Found::Nothing { looks, end: told(0) },
        Some(record) => Found::Record { number: *record as u32, looks, end: told(lookup.end(*record)) },
    }
}

/// The records that are looked at, in order, where the count is within the places.
pub fn trail(lookup: &Lookup) -> Vec<usize> {
    let mut trail = Vec::new();
    look(&lookup.list[..lookup.count * RECORD], 0, lookup.byte, &mut trail);
    trail
}

/// A look at the middle of some records, the first of which has this number, and then at those after it or before it.
fn look(records: &[u32], first: usize, byte: usize, trail: &mut Vec<usize>) {
    if records.is_empty() {
        return;
    }
    let half = records.len() / RECORD / 2;
    let (before, from) = records.split_at(half * RECORD);
    trail.push(first + half);
    if is_reached(from[RECORD_POSITION], byte) {
        look(&from[RECORD..], first + half + 1, byte, trail);
    } else {
        look(before, first, byte, trail);
    }
}

/// Whether a position is at or before the byte.
fn is_reached(position: u32, byte: usize) -> bool {
    position as usize <= byte
}

/// The last of the first `count` records at or before the byte, by a look at each; the count is within the places.
pub fn by_every_record(lookup: &Lookup) -> Option<usize> {
    (0..lookup.count).filter(|record| is_reached(lookup.position(*record), lookup.byte)).last()
}

/// Whether no position of the first `count` records is below the one before it; the count is within the places.
pub fn never_falls(lookup: &Lookup) -> bool {
    (1..lookup.count).all(|record| lookup.position(record - 1) <= lookup.position(record))
}

/// Whether no end of the first `count` records is below the one before it; the count is within the places.
pub fn ends_never_fall(lookup: &Lookup) -> bool {
    (1..lookup.count).all(|record| lookup.end(record - 1) <= lookup.end(record))
}
