//! The texts that are tried: every short one over an alphabet, every pair of bytes, and random ones.

use cases::pieces::Pieces;
use cases::random::Random;
use cases::Case;

use crate::routines::Reading;

/// A script's bound.
pub const LONGEST: usize = 65_536;

/// A label's bound.
const LONGEST_LABEL: usize = 64;

/// Bytes of random labels: few, so that they come again in the text.
const LABEL_BYTES: &[u8] = b"Ea_\x80E9";

/// Whatever a text ends with here may change what the next piece means.
const OPEN_ENDS: &[u8] = b"${\\ux";

/// Calls `each` with every byte and every pair of bytes after each prefix, also with the closer after them.
pub fn every_pair<E>(prefixes: &[&[u8]], closer: &[u8], mut each: impl FnMut(&[u8]) -> Result<(), E>) -> Result<(), E> {
    let mut text = Vec::new();
    for prefix in prefixes {
        for number in 0..256 + 65_536_u32 {
            let bytes = [(number >> 8) as u8, number as u8];
            let chosen = if number < 256 { &bytes[1..] } else { &bytes[..] };
            text.clear();
            text.extend_from_slice(prefix);
            text.extend_from_slice(chosen);
            each(&text)?;
            text.extend_from_slice(closer);
            each(&text)?;
        }
    }
    Ok(())
}

/// A label of this many bytes.
pub fn random_label(random: &mut Random, length: usize) -> Vec<u8> {
    (0..length).map(|_| LABEL_BYTES[random.below(LABEL_BYTES.len())]).collect()
}

/// Replaces the case by a random one: mostly short, one in three damaged, one in three with the cursor inside.
pub fn fill(reading: &Reading, case: &mut Case, index: usize, random: &mut Random) {
    let length = random_length(random);
    fill_to(reading, case, length, index, random);
    if random.below(3) == 0 {
        damage(&mut case.source, random);
    }
    case.source.truncate(LONGEST);
    let length = case.source.len();
    case.position = if random.below(3) == 0 { random.below(length + 1) } else { 0 };
}

/// Replaces the case by a random one of this length, with the cursor at its start. Labels have each length in turn.
pub fn fill_to(reading: &Reading, case: &mut Case, length: usize, index: usize, random: &mut Random) {
    case.position = 0;
    case.label.clear();
    if reading.has_label() {
        case.label = match random.below(3) {
            0 => random.pick(&[&b"E"[..], b"Ea", b"EOT"]).to_vec(),
            _ => random_label(random, 1 + index % LONGEST_LABEL),
        };
    }
    case.source.clear();
    fill_source(reading, case, length, random);
    case.source.truncate(length);
    if random.below(4) > 0 {
        let closer = (reading.closer)(&case.label);
        case.source.truncate(length.saturating_sub(closer.len()));
        case.source.extend_from_slice(&closer);
    }
    case.source.truncate(LONGEST);
}

fn random_length(random: &mut Random) -> usize {
    match random.below(100) {
        0 => random.below(2_049),
        _ => random.below(65),
    }
}

/// Long texts are made of pieces that end nothing, so that they do go on.
fn fill_source(reading: &Reading, case: &mut Case, length: usize, random: &mut Random) {
    let long = length > 256;
    while case.source.len() < length {
        let piece = pick(reading.calm, random);
        if !long && random.below(8) == 0 {
            case.source.extend_from_slice(pick(reading.ending, random));
        } else if reading.has_label() && !long && random.below(6) == 0 {
            push_line(case, random);
        } else if !long || !OPEN_ENDS.contains(&piece[piece.len() - 1]) {
            case.source.extend_from_slice(piece);
        }
    }
}

/// A line that closes the block or almost does: blanks, then the label, whole or cut or with another last byte.
fn push_line(case: &mut Case, random: &mut Random) {
    case.source.push(b'\n');
    for _ in 0..random.below(4) {
        case.source.extend_from_slice(random.pick(&[&b" "[..], b" ", b" ", b"\t"]));
    }
    let length = case.label.len();
    match random.below(4) {
        0 => case.source.extend_from_slice(&case.label[..random.below(length + 1)]),
        1 => {
            case.source.extend_from_slice(&case.label[..length - 1]);
            case.source.push(b'z');
        }
        _ => case.source.extend_from_slice(&case.label),
    }
}

fn pick(lists: &[Pieces], random: &mut Random) -> &'static [u8] {
    let list = lists[random.below(lists.len())];
    random.pick(list)
}

/// Drops, doubles or changes a few bytes.
fn damage(source: &mut Vec<u8>, random: &mut Random) {
    for _ in 0..1 + random.below(3) {
        if source.is_empty() {
            return;
        }
        let place = random.below(source.len());
        match random.below(4) {
            0 => drop(source.remove(place)),
            1 => source.insert(place, source[place]),
            2 => source[place] ^= 1 << random.below(8),
            _ => source.truncate(place),
        }
    }
}
