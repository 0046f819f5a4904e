//! Look-ups made on the proved library and held to what is told of them.

use std::collections::BTreeMap;

use cases::{Found, Lookup};
use telling::find::{by_every_record, found, never_falls};

use crate::hold::Held;
use crate::smaller::smaller_lookup;

/// Document 02's bound on the looks.
pub const MOST_LOOKS: u32 = 17;

/// What must be met beside records and none, where a fourth number is lent.
pub const ENDS: [&str; 2] = ["the end of a record", "the end of none"];

/// Makes look-ups and counts what they came to.
pub struct Finds<'a> {
    held: &'a mut Held,
    met: BTreeMap<String, u64>,
}

impl<'a> Finds<'a> {
    pub fn new(held: &'a mut Held) -> Finds<'a> {
        Finds { held, met: BTreeMap::new() }
    }

    /// What the look-up comes to, where the library gives just that; else a small one that fails, and both answers.
    pub fn hold(&mut self, lookup: &Lookup) -> Result<Found, String> {
        if is_wrong(lookup) {
            return Err(report(&smaller_lookup(lookup, is_wrong)));
        }
        Ok(self.count(lookup))
    }

    /// Holds a look-up that must come to this; one that fails is told as it is, for a smaller one is another.
    pub fn hold_to(&mut self, lookup: &Lookup, expected: Found) -> Result<(), String> {
        if is_wrong(lookup) {
            return Err(report(lookup));
        }
        match self.count(lookup) {
            found if found == expected => Ok(()),
            _ => Err(format!("{}\n  is told and given alike, but {} was meant", report(lookup), shown(expected))),
        }
    }

    fn count(&mut self, lookup: &Lookup) -> Found {
        self.held.made();
        let found = found(lookup);
        match found {
            Found::Refused(number) => self.meet(&format!("refusal {}", number)),
            Found::Nothing { .. } => self.meet("none"),
            Found::Record { .. } => self.meet("a record"),
        }
        if found.end().is_some() {
            self.meet(ENDS[usize::from(found.record().is_none())]);
        }
        found
    }

    /// Counts something that must be met.
    pub fn meet(&mut self, what: &str) {
        match self.met.get_mut(what) {
            Some(count) => *count += 1,
            None => drop(self.met.insert(what.to_string(), 1)),
        }
    }

    /// Counts a call that is no look-up, or is one that was made outside `hold`.
    pub fn made(&mut self) {
        self.held.made();
    }

    /// Tells what was never met of all that must be.
    pub fn must_meet(&self, all: &[&str]) -> Result<(), String> {
        match all.iter().find(|what| !self.met.contains_key(**what)) {
            Some(what) => Err(format!("  {} was never met", what)),
            None => Ok(()),
        }
    }
}

/// Whether the library gives another thing than is told, or what is told is not what it must be: too many looks, or on
/// a list whose positions never fall another record or end than a look at every one finds.
fn is_wrong(lookup: &Lookup) -> bool {
    let told = found(lookup);
    let is_told_wrong = told
        .looks()
        .map_or(false, |looks| looks > MOST_LOOKS || (never_falls(lookup) && !is_by_every_record(lookup, told)));
    is_told_wrong || host::look_up(lookup).as_ref() != Ok(&told.seen(lookup))
}

/// Whether a look at every record finds the same, with its end where that is told.
fn is_by_every_record(lookup: &Lookup, told: Found) -> bool {
    let record = by_every_record(lookup);
    let end = record.map_or(0, |record| lookup.end(record));
    told.record() == record && told.end().map_or(true, |told| told == end)
}

/// The look-up as a line, with all numbers of its list where the line does not say them, and both answers.
pub fn report(lookup: &Lookup) -> String {
    let (mut line, mut got) = (Vec::new(), Vec::new());
    lookup.write(&mut line);
    if *lookup != lookup.patterned() {
        line.extend_from_slice(format!(" with the list {:?}", lookup.list).as_bytes());
    }
    match host::look_up(lookup) {
        Ok(seen) => seen.write(lookup, &mut got),
        Err(wrong) => got.extend_from_slice(wrong.as_bytes()),
    }
    let text = |bytes: &[u8]| String::from_utf8_lossy(bytes).into_owned();
    format!("  call  {}\n  told  {}\n  given {}", text(&line), shown(found(lookup)), text(&got))
}

fn shown(found: Found) -> String {
    let mut out = Vec::new();
    found.write(&mut out);
    String::from_utf8_lossy(&out).into_owned()
}
