//! Calls at document 01's limits: bytes of source and pool, places of a list, frames, bytes of a label.

use cases::call::{ANSWER, BYTES, CHOICES, COLUMN, DEPTH, LINE, POSITION, RECORD, SESSION, SLOT, SLOTS, TOKENS};
use cases::random::Random;
use cases::{Call, Function};
use telling::bytes::{past, START};
use telling::session::{MOST_BYTES, MOST_FRAMES, MOST_LABEL, MOST_TOKENS};

use crate::cuts::cut_script;
use crate::forged::{any_choices, new_call};
use crate::hold::Held;
use crate::leaps::leap;
use crate::walks::walk;

const SCRIPTING: u32 = 1;
const FRAMES: u32 = 9;

/// Functions that read.
const READINGS: [Function; 4] = [Function::Step, Function::ReadNumber, Function::ReadSingle, Function::ReadDouble];

/// What long sources are filled with, and what they end in. They begin with the label `E`.
const FILLERS: [&[u8]; 8] = [b"a", b"\n", b" ", b"1", b"\\", b"\r\n", b"  a\n", b"\x80"];
const ENDINGS: [&[u8]; 12] =
    [b"", b"'", b"\"", b"`", b"\nE", b"\n  E", b"<?php", b"<", b"$a", b"}", b"]", b"\\u{41}\""];

/// What may enter a frame or leave one.
const ENTERING: [&[u8]; 16] = [
    b"{", b"}", b"${a}", b"${", b"{$a", b"$a[", b"$a->x", b"$a?->x", b"$a->", b"$a", b"]", b"`", b"a}", b"->",
    b"<<<E\n", b"?>",
];

/// A call on a session with one frame over `depth - 1` of Scripting, at a position with its true span.
pub fn standing(function: Function, source: &[u8], position: usize, depth: usize, top: [u32; SLOT]) -> Call {
    let mut session = vec![0; SESSION];
    let span = past(START, &source[..position]);
    session[POSITION] = position as u32;
    session[LINE] = span.line as u32;
    session[COLUMN] = span.column as u32;
    session[DEPTH] = depth as u32;
    for slot in (SLOTS..SESSION).step_by(SLOT) {
        session[slot] = SCRIPTING;
    }
    let slot = SLOTS + SLOT * (depth.min(MOST_FRAMES) - 1);
    session[slot..slot + SLOT].copy_from_slice(&top);
    Call { session, source: source.to_vec(), answer: ANSWER, ..new_call(function, Vec::new()) }
}

/// A top frame of a number; text blocks have the label at the source's start.
pub fn top(frame: u32, label: usize) -> [u32; SLOT] {
    match frame {
        4 | 5 => [frame, 0, label as u32],
        _ => [frame, 0, 0],
    }
}

/// Sources and pools around 65,536 bytes.
pub fn lengths(held: &mut Held, count: usize, random: &mut Random) -> Result<(), String> {
    for _ in 0..count {
        for length in MOST_BYTES - 1..=MOST_BYTES + 1 {
            let source = long_source(length, random);
            let position = [1, 2, random.below(length), length - random.below(8), length][random.below(5)];
            let frame = random.below(FRAMES as usize) as u32;
            let depth = 1 + usize::from(frame >= 7) + random.below(2);
            let mut call = standing(Function::Step, &source, position, depth, top(frame, 1));
            if frame == SCRIPTING {
                call.function = READINGS[random.below(READINGS.len())];
            }
            call.end = random.below(4).min(1) as u32;
            call.list = 2 * RECORD;
            call.pool = MOST_BYTES - 1 + random.below(3);
            call.session[CHOICES] = any_choices(random) as u32;
            held.hold(&call)?;
            call.pool = length - position + random.below(2);
            held.hold(&call)?;
            skip_far(held, call)?;
        }
        full_pool(held, random)?;
    }
    Ok(())
}

fn long_source(length: usize, random: &mut Random) -> Vec<u8> {
    let filler = random.pick(&FILLERS);
    let ending = random.pick(&ENDINGS);
    let mut source = b"E".to_vec();
    source.extend(filler.iter().cycle().take(length - 1 - ending.len()));
    source.extend_from_slice(ending);
    source
}

/// Skips to the end of a long source, and one byte further.
fn skip_far(held: &mut Held, mut call: Call) -> Result<(), String> {
    let left = call.source.len() - call.number(POSITION);
    call = Call { function: Function::Skip, end: 0, list: 0, pool: 0, ..call };
    for count in [left, left + 1] {
        call.arguments = vec![count];
        held.hold(&call)?;
    }
    Ok(())
}

/// Text that fills a pool of 65,536 bytes to the last one, or is one byte too long for what is left.
fn full_pool(held: &mut Held, random: &mut Random) -> Result<(), String> {
    let source = vec![b'a'; MOST_BYTES - random.below(3)];
    let mut call = standing(Function::Step, &source, 0, 1, top(0, 0));
    call.end = 1;
    call.list = RECORD;
    for (mark, number) in [(MOST_BYTES - source.len(), 0), (MOST_BYTES - source.len() + 1, 8), (MOST_BYTES + 1, 12)] {
        call.pool = MOST_BYTES;
        call.session[BYTES] = mark as u32;
        held.hold_to(&call, number)?;
        call.pool = MOST_BYTES + 1;
        held.hold_to(&call, 11)?;
    }
    Ok(())
}

/// Lists around 65,537 places, with marks there.
pub fn places(held: &mut Held, count: usize, random: &mut Random) -> Result<(), String> {
    for _ in 0..count {
        for most in MOST_TOKENS - 1..=MOST_TOKENS + 1 {
            let mut call = standing(Function::Step, b"a<?php ", 0, 1, top(0, 0));
            call.end = 1;
            call.pool = 8;
            call.list = most * RECORD + random.below(RECORD);
            for missing in 0..3 {
                call.session[TOKENS] = (most - missing) as u32;
                held.hold_to(&call, if most > MOST_TOKENS { 11 } else { [7, 7, 0][missing] })?;
            }
            call.session[TOKENS] = most as u32 + 1;
            held.hold_to(&call, if most > MOST_TOKENS { 11 } else { 12 })?;
        }
    }
    Ok(())
}

/// Every frame on top of 62 to 65, with what may enter a frame or leave one.
pub fn frames(held: &mut Held, _count: usize, _random: &mut Random) -> Result<(), String> {
    for depth in MOST_FRAMES - 2..=MOST_FRAMES + 1 {
        for frame in 0..FRAMES {
            for entering in ENTERING {
                let source = [b"E", entering].concat();
                for end in [0, 1] {
                    let mut call = standing(Function::Step, &source, 1, depth, top(frame, 1));
                    call.end = end;
                    call.list = 2 * RECORD;
                    call.pool = source.len();
                    held.hold(&call)?;
                    call.session[DEPTH] = 0;
                    held.hold_to(&call, 12)?;
                }
            }
            let mut call = standing(Function::Pop, b"E", 1, depth, top(frame, 1));
            held.hold_to(&call, if depth > MOST_FRAMES { 12 } else { 0 })?;
            call.function = Function::Push;
            for pushed in 0..=FRAMES {
                call.arguments = vec![pushed as usize, 0, 1];
                let number = [0, 0, 9, 12][depth + 2 - MOST_FRAMES];
                held.hold_to(&call, if pushed == FRAMES && number != 12 { 10 } else { number })?;
            }
        }
    }
    Ok(())
}

/// Scripts at each limit, stepped to their end, uncut and cut, and walked in one call.
pub fn scripts(held: &mut Held, count: usize, random: &mut Random) -> Result<(), String> {
    let block = |label: usize| [b"<?php <<<".to_vec(), vec![b'E'; label], b"\n\n".to_vec(), vec![b'E'; label]].concat();
    let deep = |frames: usize| [b"<?php ".to_vec(), vec![b'{'; frames - 1], b"\"$a->x\"".to_vec()].concat();
    let long = |length: usize| [b"<?php '".to_vec(), vec![b'\n'; length - 8], b"'".to_vec()].concat();
    for _ in 0..count {
        for off in 0..3 {
            for script in [block(MOST_LABEL - 1 + off), deep(MOST_FRAMES - 1 + off), block(off)] {
                cut_script(held, &script, any_choices(random), random)?;
                leap(held, &script, any_choices(random), random)?;
            }
        }
        for length in [MOST_BYTES - 1, MOST_BYTES] {
            cut_script(held, &long(length), any_choices(random), random)?;
            leap(held, &long(length), any_choices(random), random)?;
        }
        // Its parts are not too large, so it is not cut.
        walk(held, &long(MOST_BYTES + 1), 0)?;
    }
    Ok(())
}

/// Labels of 0 to 66 bytes: in openings, in pushes, and in sessions.
pub fn labels(held: &mut Held, _count: usize, _random: &mut Random) -> Result<(), String> {
    for length in [0, 1, 2, MOST_LABEL - 1, MOST_LABEL, MOST_LABEL + 1, MOST_LABEL + 2] {
        for byte in [b'E', b'_', 0x80, b'7'] {
            let label = vec![byte; length];
            openings(held, &label)?;
            pushes(held, &label)?;
            blocks(held, &label)?;
        }
    }
    Ok(())
}

/// Whether a label has 1 to 64 bytes.
fn has_length(label: &[u8]) -> bool {
    !label.is_empty() && label.len() <= MOST_LABEL
}

/// `<<<L` in each form, whole and cut at each place.
fn openings(held: &mut Held, label: &[u8]) -> Result<(), String> {
    for (before, behind) in [("<<<", "\n"), ("<<<", "\r\n"), ("<<<'", "'\n"), ("<<<'", "'\r\n"), ("<<<'", "\n")] {
        let text = [before.as_bytes(), label, behind.as_bytes(), b"x"].concat();
        for cut in 0..=text.len() {
            let mut call = standing(Function::Step, &text[..cut], 0, 1, top(SCRIPTING, 0));
            held.hold(&call)?;
            call.end = 1;
            held.hold(&call)?;
        }
    }
    Ok(())
}

fn pushes(held: &mut Held, label: &[u8]) -> Result<(), String> {
    let source = [b" ", label, b" "].concat();
    for frame in [4, 5] {
        let mut call = standing(Function::Push, &source, 0, 1, top(SCRIPTING, 0));
        call.arguments = vec![frame, 1, label.len()];
        held.hold_to(&call, if has_length(label) { 0 } else { 10 })?;
        for (start, len) in [(0, label.len()), (1, label.len() + 1), (2, label.len()), (source.len(), 1)] {
            call.arguments = vec![frame, start, len];
            held.hold(&call)?;
        }
    }
    Ok(())
}

/// A block with the label, closed by it or almost, whole and cut at each place, under all choices.
fn blocks(held: &mut Held, label: &[u8]) -> Result<(), String> {
    let body = [b"  a\n", &b" "[..], label.get(1..).unwrap_or(b""), b"z\n  ", label, b"\n"].concat();
    let source = [label, b"\n", &body].concat();
    for frame in [4, 5] {
        for cut in label.len() + 1..=source.len() {
            let mut call = standing(Function::Step, &source[..cut], label.len() + 1, 1, top(frame, label.len()));
            call.list = 2 * RECORD;
            call.pool = source.len();
            for choice in 0..8 {
                call.end = choice & 1;
                call.session[CHOICES] = choice >> 1;
                if has_length(label) {
                    held.hold(&call)?;
                } else {
                    held.hold_to(&call, 12)?;
                }
            }
        }
    }
    Ok(())
}
