//! A failing call made smaller: fewer bytes, frames and places, and plainer numbers, while it still fails.

use cases::call::{list_pattern, ANSWER, BYTES, CHOICES, COLUMN, DEPTH, LINE, POSITION, SESSION, SLOT, SLOTS, TOKENS};
use cases::call::{OCTAL_MANUAL, SHEETS};
use cases::call::{RECORD, RECORD_END, RECORD_POSITION};
use cases::lookup::{FOUND, FOUND_ENDED};
use cases::{Call, Lookup};
use telling::session::MOST_FRAMES;

/// A source over this many bytes is not tried byte by byte.
const MOST_SINGLE: usize = 4096;

pub fn smaller(call: &Call, mut fails: impl FnMut(&Call) -> bool) -> Call {
    let mut best = call.clone();
    loop {
        let before = best.clone();
        drop_parts(&mut best, |call| call.source.len(), without, &mut fails);
        let mut attempt = |change: &dyn Fn(&mut Call)| {
            let mut other = best.clone();
            change(&mut other);
            if other != best && fails(&other) {
                best = other;
            }
        };
        CHANGES.iter().for_each(|change| attempt(change));
        (0..MOST_FRAMES).for_each(|slot| attempt(&|call| drop_frame(call, slot)));
        (0..MOST_FRAMES).for_each(|slot| attempt(&|call| plain_frame(call, slot)));
        (0..MOST_FRAMES).for_each(|slot| attempt(&|call| clear_slot(call, slot)));
        if best == before {
            return best;
        }
    }
}

/// Drops parts of something, many bytes at a time at first, while it still fails.
pub fn drop_parts<T>(
    best: &mut T,
    length: impl Fn(&T) -> usize,
    without: impl Fn(&T, usize, usize) -> T,
    mut fails: impl FnMut(&T) -> bool,
) {
    let whole = length(best);
    let mut width = (whole / 2).max(1);
    let least = if whole > MOST_SINGLE { whole / 64 } else { 1 };
    while width >= least {
        let mut start = 0;
        while start < length(best) {
            let shorter = without(best, start, width);
            if fails(&shorter) {
                *best = shorter;
            } else {
                start += width;
            }
        }
        width /= 2;
    }
}

/// The bytes without some of them.
pub fn without_bytes(bytes: &[u8], start: usize, width: usize) -> Vec<u8> {
    [&bytes[..start], bytes.get(start + width..).unwrap_or(&[])].concat()
}

/// A place after a number of dropped bytes.
pub fn moved(place: usize, start: usize, width: usize) -> usize {
    if place <= start {
        place
    } else {
        place.max(start + width) - width
    }
}

/// The call without some bytes of its source; cursor and labels stay with their bytes.
fn without(call: &Call, start: usize, width: usize) -> Call {
    let mut shorter = call.clone();
    let width = width.min(call.source.len() - start);
    shorter.source = without_bytes(&call.source, start, width);
    let moved = |place: u32| match place as usize {
        place if place > call.source.len() => place as u32,
        place => moved(place, start, width) as u32,
    };
    if call.session.len() < SESSION {
        return shorter;
    }
    shorter.session[POSITION] = moved(call.session[POSITION]);
    for place in [LINE, COLUMN] {
        shorter.session[place] = call.session[place].min(shorter.session[POSITION].saturating_add(1));
    }
    for slot in (SLOTS..SESSION).step_by(SLOT).filter(|slot| matches!(call.session[*slot], 4 | 5)) {
        shorter.session[slot + 1] = moved(call.session[slot + 1]);
    }
    shorter
}

/// What makes a call plainer.
const CHANGES: [fn(&mut Call); 17] = [
    |call| call.session.truncate(SESSION),
    |call| call.session.fill(0),
    |call| call.answer = call.answer.min(ANSWER),
    |call| call.list /= 2,
    |call| call.list = call.list.saturating_sub(1),
    |call| call.pool /= 2,
    |call| call.pool = call.pool.saturating_sub(1),
    |call| call.end = call.end.min(1),
    |call| call.arguments.iter_mut().for_each(|argument| *argument /= 2),
    |call| call.arguments.iter_mut().for_each(|argument| *argument = argument.saturating_sub(1)),
    |call| set(call, LINE, 1),
    |call| set(call, COLUMN, 1),
    |call| clear_choice(call, SHEETS),
    |call| clear_choice(call, OCTAL_MANUAL),
    clear_above,
    |call| {
        call.list -= (call.number(TOKENS) * RECORD).min(call.list);
        set(call, TOKENS, 0);
    },
    |call| {
        call.pool -= call.number(BYTES).min(call.pool);
        set(call, BYTES, 0);
    },
];

fn set(call: &mut Call, place: usize, number: u32) {
    if let Some(lent) = call.session.get_mut(place) {
        *lent = number;
    }
}

/// The session without a choice.
fn clear_choice(call: &mut Call, flag: usize) {
    let choices = call.number(CHOICES);
    set(call, CHOICES, (choices & !flag) as u32);
}

/// One frame less, where there are as many as the depth says.
fn drop_frame(call: &mut Call, slot: usize) {
    let depth = call.number(DEPTH);
    if call.session.len() >= SESSION && slot < depth && depth > 1 && depth <= MOST_FRAMES {
        call.session[DEPTH] -= 1;
        call.session[SLOTS + slot * SLOT..SESSION].rotate_left(SLOT);
        call.session[SESSION - SLOT..SESSION].fill(0);
    }
}

/// Scripting in a slot below the top.
fn plain_frame(call: &mut Call, slot: usize) {
    if call.session.len() >= SESSION && slot + 1 < call.number(DEPTH) {
        call.session[SLOTS + slot * SLOT..][..SLOT].copy_from_slice(&[1, 0, 0]);
    }
}

/// Nothing in a slot above the depth.
fn clear_slot(call: &mut Call, slot: usize) {
    if call.session.len() >= SESSION && slot >= call.number(DEPTH) {
        call.session[SLOTS + slot * SLOT..][..SLOT].fill(0);
    }
}

/// Nothing above the depth.
fn clear_above(call: &mut Call) {
    let first = SLOTS + SLOT * call.number(DEPTH);
    if first < call.session.len() {
        call.session[first..].fill(0);
    }
}

/// Positions of a list with more places are not made plainer one by one, nor is a larger number made smaller by one.
const MOST_PLAIN: usize = 64;

/// A failing look-up with fewer records and plainer numbers, which still fails.
pub fn smaller_lookup(lookup: &Lookup, fails: impl Fn(&Lookup) -> bool) -> Lookup {
    let mut best = lookup.clone();
    loop {
        let before = best.clone();
        drop_parts(&mut best, Lookup::places, without_records, &fails);
        let mut attempt = |change: &dyn Fn(&mut Lookup)| {
            let mut other = best.clone();
            change(&mut other);
            if other != best && fails(&other) {
                best = other;
            }
        };
        LOOKUP_CHANGES.iter().for_each(|change| attempt(change));
        (0..usize::BITS).rev().for_each(|bit| attempt(&|lookup| lookup.byte &= !(1 << bit)));
        (0..before.places().min(MOST_PLAIN)).for_each(|record| attempt(&|lookup| plain_position(lookup, record)));
        if best == before {
            return best;
        }
    }
}

/// The look-up without some records of its list.
fn without_records(lookup: &Lookup, start: usize, width: usize) -> Lookup {
    let mut fewer = lookup.clone();
    let end = (start + width).min(lookup.places());
    fewer.list.drain(start * RECORD..end * RECORD);
    if lookup.count <= lookup.places() + 1 {
        fewer.count = moved(lookup.count, start, end - start);
    }
    fewer
}

/// What makes a look-up plainer.
const LOOKUP_CHANGES: [fn(&mut Lookup); 9] = [
    |lookup| *lookup = lookup.patterned(),
    drop_ends,
    |lookup| lookup.list.truncate(lookup.places() * RECORD),
    |lookup| lookup.found = lookup.found.min(FOUND_ENDED),
    |lookup| lookup.found = lookup.found.min(FOUND),
    |lookup| lookup.count = lookup.count.min(lookup.places() + 1),
    |lookup| lookup.count /= 2,
    |lookup| lookup.count = one_less(lookup.count),
    |lookup| lookup.byte = one_less(lookup.byte),
];

/// The pattern at each end.
fn drop_ends(lookup: &mut Lookup) {
    for place in (RECORD_END..lookup.list.len()).step_by(RECORD) {
        lookup.list[place] = list_pattern(place);
    }
}

/// A small number made smaller by one.
fn one_less(number: usize) -> usize {
    number - usize::from(number > 0 && number <= MOST_PLAIN)
}

/// A record at 0, or where that is another thing just past the byte.
fn plain_position(lookup: &mut Lookup, record: usize) {
    if record < lookup.places() {
        let is_reached = lookup.position(record) as usize <= lookup.byte;
        let past = u32::try_from(lookup.byte).map_or(u32::MAX, |byte| byte.saturating_add(1));
        lookup.list[record * RECORD + RECORD_POSITION] = if is_reached { 0 } else { past };
    }
}
