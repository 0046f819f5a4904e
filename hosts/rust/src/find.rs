//! Which record of a list is under a byte.

use crate::foreign;
use crate::numbers::layout::{FOUND_ANY, FOUND_END, FOUND_ENDED, FOUND_LOOKS, FOUND_RECORD};
use crate::record::stated;
use crate::refusal::{given, Refusal};

/// Which record is under a byte.
#[derive(Clone, Copy, Debug, PartialEq, Eq, Hash)]
pub struct Found {
    /// Its number in the list, from 0; none where no record is at or before the byte.
    pub record: Option<usize>,
    /// How many records were looked at: at most 17.
    pub looks: u32,
    /// Where the step ended that wrote it, as its record says (`Record::end`); none where no record is found, or where
    /// its end is not stated. A byte from there on has no token of that step.
    pub end: Option<u32>,
}

/// The last of the first `count` records of a list whose position is at or before a byte, itself a position in the
/// script.
///
/// In a list that was filled from a token mark of 0 by steps, walks and readings, each on the session and list that the
/// last one left, it is what a look at every record would find: of records at one position the last. In a list whose
/// positions fall it is what the search comes to, a record at or before the byte or none, and the same each time.
/// `count` is `Session::tokens` for all records of a session. Refused: a list of more than 65,537 places (11), then a
/// count above its places (12).
pub fn find(list: &[u32], count: usize, byte: usize) -> Result<Found, Refusal> {
    let mut numbers = [0; FOUND_ENDED];
    let refusal = foreign::find(list, count, byte, &mut numbers);
    let record = Some(numbers[FOUND_RECORD] as usize).filter(|_| numbers[FOUND_ANY] != 0);
    given(refusal, Found { record, looks: numbers[FOUND_LOOKS], end: stated(numbers[FOUND_END]) })
}
