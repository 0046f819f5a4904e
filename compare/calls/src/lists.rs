//! Look-ups in lists that no steps filled: every short list, random ones, two that agree on the trail, and the largest.

use cases::call::{RECORD, RECORD_END, RECORD_POSITION};
use cases::lookup::{FOUND, FOUND_ENDED};
use cases::pieces::every_text;
use cases::random::Random;
use cases::{Found, Lookup};
use telling::find::{found, trail};
use telling::session::MOST_TOKENS;

use crate::finds::{report, Finds, ENDS, MOST_LOOKS};
use crate::forged::wild;
use crate::hold::Held;

/// Every list of up to so many records over the first positions is tried.
const MOST_SHORT: usize = 5;
const SHORT_POSITIONS: [u8; 4] = [0, 1, 2, 3];

/// The first number of more than 32 bits.
const PAST_32_BITS: usize = 1 << 32;

/// Every short list with every byte and count, and random lists of any kind.
pub fn forged_lists(held: &mut Held, count: usize, random: &mut Random) -> Result<(), String> {
    let mut finds = Finds::new(held);
    every_text(&SHORT_POSITIONS, MOST_SHORT, |positions| short_list(&mut finds, positions, random))?;
    (0..count).try_for_each(|_| finds.hold(&any_lookup(random)).map(drop))?;
    finds.must_meet(&["refusal 10", "refusal 12", "none", "a record"])?;
    finds.must_meet(&ENDS)
}

/// A list with each byte up to one past its positions, and each count up to one above its places.
fn short_list(finds: &mut Finds, positions: &[u8], random: &mut Random) -> Result<(), String> {
    let positions: Vec<u32> = positions.iter().copied().map(u32::from).collect();
    let mut lookup = Lookup::new(positions.len() * RECORD + random.below(RECORD), &positions, 0, 0);
    lookup.found = any_found(random);
    for byte in 0..=SHORT_POSITIONS.len() {
        lookup.byte = byte;
        for count in 0..=positions.len() + 1 {
            lookup.count = count;
            finds.hold(&lookup)?;
        }
    }
    Ok(())
}

/// A look-up in a random list, with any count, byte and slice for what is found.
pub fn any_lookup(random: &mut Random) -> Lookup {
    let mut lookup = any_list(random);
    let places = lookup.places();
    let counts = [places, places, random.below(places + 1), places + 1, wild(random) as usize, usize::MAX];
    lookup.count = match random.below(40) {
        0 => PAST_32_BITS + random.below(places + 1),
        pick => counts[pick % counts.len()],
    };
    lookup.found = if random.below(8) == 0 { random.below(7) } else { any_found(random) };
    lookup
}

/// The length of a slice for what is found: without the end, with it, or longer.
pub fn any_found(random: &mut Random) -> usize {
    [FOUND, FOUND, FOUND_ENDED, FOUND_ENDED, FOUND_ENDED + random.below(4)][random.below(5)]
}

/// A look-up of all records of a random list: rising, falling, of one position, or of any.
fn any_list(random: &mut Random) -> Lookup {
    let places = if random.below(100) == 0 { random.below(3_000) } else { random.below(40) };
    let way = random.below(7);
    let mut at = [random.below(9) as u32, u32::MAX - random.below(9) as u32, wild(random)][way % 3];
    let positions: Vec<u32> = (0..places)
        .map(|_| {
            at = match way {
                0 => at.saturating_add(random.below(4) as u32),
                1 => at.saturating_sub(random.below(4) as u32),
                2 => at,
                3 => random.below(9) as u32,
                4 => wild(random),
                5 => random.number() as u32,
                _ => u32::MAX - random.below(2) as u32,
            };
            at
        })
        .collect();
    let byte = any_byte(&positions, random);
    let ends = if random.below(2) == 0 { Vec::new() } else { any_ends(&positions, random) };
    Lookup::new(places * RECORD + random.below(RECORD), &positions, places, byte).with(RECORD_END, &ends)
}

/// Eighth numbers: none stated, any, or beside the positions.
fn any_ends(positions: &[u32], random: &mut Random) -> Vec<u32> {
    let way = random.below(3);
    let end = |position: &u32| match way {
        0 => 0,
        1 => wild(random),
        _ => position.saturating_add(random.below(4) as u32),
    };
    positions.iter().map(end).collect()
}

/// A byte beside a position, or at a bound of its numbers.
fn any_byte(positions: &[u32], random: &mut Random) -> usize {
    let position = positions.get(random.below(positions.len().max(1))).map_or(0, |position| *position as usize);
    match random.below(8) {
        0 => wild(random) as usize,
        1 => usize::MAX,
        2 => PAST_32_BITS + position.saturating_sub(1),
        pick => (position + pick % 3).saturating_sub(1),
    }
}

/// Two lists of one count, of any lengths, that agree in the positions on the trail and in nothing else, but for the
/// end of the record that is found where it is told: the same answer and looks.
pub fn agreeing_lists(held: &mut Held, count: usize, random: &mut Random) -> Result<(), String> {
    let mut finds = Finds::new(held);
    for _ in 0..count {
        let mut one = any_list(random);
        one.count = random.below(one.places() + 1);
        one.found = any_found(random);
        let mut other = Lookup { list: Vec::new(), ..one.clone() };
        let length = one.count * RECORD + random.below(4 * RECORD);
        let numbers = (0..length).map(|place| one.list.get(place).copied().unwrap_or(0) ^ (1 | random.number() as u32));
        other.list = numbers.collect();
        for record in trail(&one) {
            let place = record * RECORD + RECORD_POSITION;
            other.list[place] = one.list[place];
        }
        if let (Some(record), Some(end)) = (found(&one).record(), found(&one).end()) {
            other.list[record * RECORD + RECORD_END] = end;
        }
        if finds.hold(&one)? != finds.hold(&other)? {
            return Err(format!("  {:?} and\n  {:?} agree on the trail and get different answers", one, other));
        }
    }
    finds.must_meet(&["none", "a record"])?;
    finds.must_meet(&ENDS)
}

/// Lists of 65,535 to 65,538 places.
pub fn largest_lists(held: &mut Held, count: usize, random: &mut Random) -> Result<(), String> {
    let mut finds = Finds::new(held);
    for places in [MOST_TOKENS + 1, MOST_TOKENS, 1, 0] {
        refused_lists(&mut finds, places)?;
    }
    for places in MOST_TOKENS - 2..=MOST_TOKENS + 1 {
        (0..count).try_for_each(|_| large_list(&mut finds, places, random))?;
    }
    for (places, most) in [(MOST_TOKENS - 2, 16), (MOST_TOKENS - 1, MOST_LOOKS), (MOST_TOKENS, MOST_LOOKS)] {
        every_byte(&mut finds, places, most)?;
    }
    finds.must_meet(&["refusal 10", "refusal 11", "refusal 12", "none", "a record"])?;
    finds.must_meet(&ENDS)
}

/// Look-ups that up to three refusals fit, those with the most refusals first.
fn refused_lists(finds: &mut Finds, places: usize) -> Result<(), String> {
    let positions: Vec<u32> = (1..=places as u32).collect();
    let mut lookup = Lookup::new(places * RECORD, &positions, 0, 0);
    for count in [usize::MAX, PAST_32_BITS + places, PAST_32_BITS, places + 1, places, 0] {
        for found in 0..=2 * FOUND {
            lookup.count = count;
            lookup.found = found;
            finds.hold_to(&lookup, none_found(places, count, found))?;
        }
    }
    Ok(())
}

/// What must come of a look-up at a byte before all positions: 10, then 11, then 12, else none, and each look halves
/// what is left.
fn none_found(places: usize, count: usize, found: usize) -> Found {
    if found < FOUND {
        Found::Refused(10)
    } else if places > MOST_TOKENS {
        Found::Refused(11)
    } else if count > places {
        Found::Refused(12)
    } else {
        let end = (found >= FOUND_ENDED).then(|| 0);
        Found::Nothing { looks: usize::BITS - count.leading_zeros(), end }
    }
}

/// Counts around so many places, and bytes within the positions and past them.
fn large_list(finds: &mut Finds, places: usize, random: &mut Random) -> Result<(), String> {
    let step = random.below(4) as u32;
    let mut positions: Vec<u32> = (0..places as u32).map(|record| 1 + record * step).collect();
    if random.below(3) == 0 {
        positions.reverse();
    }
    let length = places * RECORD + random.below(RECORD);
    let mut lookup = Lookup::new(length, &positions, 0, any_byte(&positions, random));
    lookup.found = any_found(random);
    for count in [places - 1, places, places + 1, random.below(places)] {
        lookup.count = count;
        finds.hold(&lookup)?;
    }
    Ok(())
}

/// All records of a list with the positions 1, 2, 3 and so on, at every byte up to one past them: the byte's own
/// record and its end, and the most looks are so many.
fn every_byte(finds: &mut Finds, places: usize, most: u32) -> Result<(), String> {
    let positions: Vec<u32> = (1..=places as u32).collect();
    let mut lookup = Lookup { found: FOUND_ENDED, ..Lookup::new(places * RECORD, &positions, places, 0) };
    let mut seen = 0;
    for byte in 0..=places + 1 {
        let mut found = [9; FOUND_ENDED];
        let number = host::find(&lookup.list, places, byte, &mut found);
        let record = byte.min(places) as u32;
        let end = if byte == 0 { 0 } else { lookup.end(record as usize - 1) };
        let is_right = number == 0 && found[..2] == [record.min(1), record.saturating_sub(1)] && found[3] == end;
        lookup.byte = byte;
        finds.made();
        seen = seen.max(found[2]);
        if !is_right || found[2] as usize != trail(&lookup).len() {
            return Err(report(&lookup));
        }
    }
    if seen != most {
        return Err(format!("  {} records take up to {} looks, not {}", places, seen, most));
    }
    Ok(())
}
