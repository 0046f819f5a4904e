//! Which record of a list is under a byte: lists whose positions rise, stay or fall, and those that are refused.

mod plain;

use plain::last_at_or_before;
use puretakoi::{find, limits, refusals, Found, Refusal, Span};

/// A list of records at these positions, each with an end of its own: 1,001, 1,002 and so on. Their other numbers mean
/// nothing here.
fn list(positions: &[u32]) -> Vec<u32> {
    positions.iter().zip(1_001..).flat_map(|(position, end)| [99, 99, 0, 0, *position, 7, u32::MAX, end]).collect()
}

/// What is found at a byte among all records at these positions.
fn found(positions: &[u32], byte: usize) -> Found {
    find(&list(positions), positions.len(), byte).unwrap()
}

fn at(record: usize, looks: u32) -> Found {
    Found { record: Some(record), looks, end: Some(1_001 + record as u32) }
}

fn none(looks: u32) -> Found {
    Found { record: None, looks, end: None }
}

fn refused(number: u32) -> Result<Found, Refusal> {
    Err(Refusal { number, span: Span::START })
}

#[test]
fn no_records() {
    assert_eq!((found(&[], 0), found(&[], usize::MAX)), (none(0), none(0)));
    assert_eq!(find(&list(&[0, 1, 2]), 0, 1), Ok(none(0)));
}

#[test]
fn one_record() {
    assert_eq!((found(&[5], 4), found(&[5], 5), found(&[5], usize::MAX)), (none(1), at(0, 1), at(0, 1)));
}

/// Middles 2 (4), 4 (9), 3 (4) at byte 4; 2 (4), 1 (4), 0 (0) at byte 3.
#[test]
fn of_one_position_the_last() {
    assert_eq!((found(&[0, 4, 4, 4, 9], 4), found(&[0, 4, 4, 4, 9], 3)), (at(3, 3), at(0, 3)));
}

/// Middles 1 (1), then 2 (9) at byte 3: only the search itself holds. At byte 0 middles 1 (1), then 0 (5). Where 1 (5)
/// and 0 (9) are looked at, the record at 1 is not met.
#[test]
fn positions_that_fall() {
    assert_eq!((found(&[5, 1, 9], 3), found(&[5, 1, 9], 0)), (at(1, 2), none(2)));
    assert_eq!(found(&[9, 5, 1], 3), none(2));
}

/// What stands in the list after the records that count is not looked at.
#[test]
fn records_beyond_the_count() {
    let all = list(&[0, 3, 6, 7]);
    assert_eq!((find(&all, 2, 9), find(&all, 4, 9)), (Ok(at(1, 1)), Ok(at(3, 2))));
    assert_eq!(find(&[&all[..], &[1; 7]].concat(), 4, 9), Ok(at(3, 2)));
}

/// Every list of up to six positions that never fall, each below 5, at every byte.
#[test]
fn short_lists_are_found_as_by_a_look_at_every_record() {
    let mut lists = vec![Vec::new()];
    let mut next = 0;
    while next < lists.len() {
        let positions: Vec<u32> = lists[next].clone();
        for byte in 0..6 {
            let want = last_at_or_before(positions.iter().copied(), byte);
            assert_eq!(found(&positions, byte).record, want, "{:?} at {}", positions, byte);
        }
        let from = positions.last().copied().unwrap_or(0);
        let longer = (from..5).map(|last| [&positions[..], &[last]].concat());
        lists.extend(longer.filter(|longer| longer.len() <= 6));
        next += 1;
    }
    assert_eq!(lists.len(), 462);
}

/// Towards the first record the rest is halved: 65,537, 32,768 and so on to 1, which are 17 looks. Towards the last it
/// is less than half: 65,537, 32,768, 16,383 and so on to 1, which are 16.
#[test]
fn the_longest_list_takes_17_looks() {
    let positions: Vec<u32> = (0..limits::MOST_TOKENS as u32).collect();
    let longest = list(&positions);
    let at_byte = |byte| find(&longest, positions.len(), byte).unwrap();
    assert_eq!((at_byte(0), at_byte(usize::MAX)), (at(0, 17), at(65_536, 16)));
    for byte in 0..limits::MOST_TOKENS {
        let Found { record, looks, end } = at_byte(byte);
        assert_eq!((record, end, looks <= 17), (Some(byte), Some(1_001 + byte as u32), true), "{} looks", looks);
    }
    let later: Vec<u32> = (1..=limits::MOST_TOKENS as u32).collect();
    assert_eq!((found(&later, 0), found(&later[..65_535], 0)), (none(17), none(16)));
}

#[test]
fn what_is_refused() {
    let (most, one_more) = (vec![0; 8 * 65_537 + 7], vec![0; 8 * 65_538]);
    assert_eq!(find(&most, 0, 0), Ok(none(0)));
    assert_eq!(find(&one_more, 0, 0), refused(refusals::TOO_LARGE));
    assert_eq!(find(&one_more, usize::MAX, 0), refused(refusals::TOO_LARGE));
    assert_eq!(find(&most, 65_538, 0), refused(refusals::BAD_SESSION));
    let first = Ok(Found { end: None, ..at(0, 1) });
    assert_eq!((find(&[0; 15], 1, 0), find(&[0; 15], 2, 0)), (first, refused(refusals::BAD_SESSION)));
    assert_eq!(find(&[], usize::MAX, usize::MAX), refused(refusals::BAD_SESSION));
}

/// The end is the found record's own eighth number, whatever it is; 0 states none, as in lists of older writers.
#[test]
fn ends_of_found_records() {
    let mut all = list(&[0, 3, 6]);
    all[15] = 0;
    all[23] = u32::MAX;
    let end = |byte| find(&all, 3, byte).unwrap().end;
    assert_eq!([end(0), end(2), end(3), end(5), end(6)], [Some(1_001), Some(1_001), None, None, Some(u32::MAX)]);
    assert_eq!(find(&all, 0, 6), Ok(none(0)));
}
