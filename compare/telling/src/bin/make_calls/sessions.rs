//! Good sessions around a text: bytes before it, other frames below, marks, and room for whatever the call writes.

use cases::call::{BYTES, CHOICES, COLUMN, DEPTH, LINE, POSITION, RECORD, SESSION, SLOT, SLOTS, TOKENS};
use cases::random::Random;
use cases::{Call, Function};
use telling::bytes::{past, START};

/// The frames' numbers.
pub const INITIAL: u32 = 0;
pub const SCRIPTING: u32 = 1;
pub const DOUBLE_QUOTE: u32 = 2;
pub const SHELL_EXEC: u32 = 3;
pub const HEREDOC: u32 = 4;
pub const NOWDOC: u32 = 5;
pub const LOOKING_FOR_VARNAME: u32 = 6;
pub const LOOKING_FOR_PROPERTY: u32 = 7;
pub const VAR_OFFSET: u32 = 8;

/// What may stand before a text: each holds the label `E`, so that any frame can be below.
const HEADS: [&[u8]; 8] = [b"E", b"E ", b"E\n", b"<<<E\n", b"<<<'E'\r\n", b"<?php\n\nE\t", b"\x80E\n.", b"?>\nE\n\n  "];

/// A frame in its three numbers.
pub type Slot = [u32; SLOT];

/// A call on a session at the start of `text`, after `head`: the top frame alone, ample room, the end announced.
pub fn plain(function: Function, head: &[u8], text: &[u8], top: Slot) -> Call {
    let mut call = Call {
        function,
        arguments: Vec::new(),
        end: 1,
        session: vec![0; SESSION],
        list: 3 * RECORD,
        pool: text.len() + 80,
        answer: 5,
        source: [head, text].concat(),
    };
    let span = past(START, head);
    call.session[POSITION] = span.position as u32;
    call.session[LINE] = span.line as u32;
    call.session[COLUMN] = span.column as u32;
    put_frames(&mut call, &[top]);
    trimmed(call)
}

/// The call without what its function does not take.
pub fn trimmed(mut call: Call) -> Call {
    if !call.function.has_tables() {
        call.end = 0;
        call.list = 0;
        call.pool = 0;
    }
    if !call.function.has_answer() {
        call.answer = 0;
        call.source.clear();
    }
    call
}

/// Sets depth and slots, from the bottom on; there may be more than 64.
pub fn put_frames(call: &mut Call, frames: &[Slot]) {
    call.session[DEPTH] = frames.len() as u32;
    for (place, number) in frames.concat().iter().enumerate().take(SESSION - SLOTS) {
        call.session[SLOTS + place] = *number;
    }
}

/// Sets both marks, with as much room after them as before.
pub fn put_marks(call: &mut Call, tokens: usize, bytes: usize) {
    call.session[TOKENS] = tokens as u32;
    call.session[BYTES] = bytes as u32;
    call.list += tokens * RECORD;
    call.pool += bytes;
}

/// A frame without a label.
pub const fn bare(frame: u32) -> Slot {
    [frame, 0, 0]
}

/// A head, and where its label stands.
pub fn head(random: &mut Random) -> (&'static [u8], u32) {
    let head = random.pick(&HEADS);
    let start = head.iter().position(|byte| *byte == b'E').unwrap_or(0);
    (head, start as u32)
}

/// The call with other frames below its top one and marks, and sometimes with a line and column of no honest session,
/// slots of no frame above the depth, numbers after the session and the answer, and another number for the announced end.
pub fn varied(mut call: Call, label: u32, random: &mut Random) -> Call {
    let top = [call.session[SLOTS], call.session[SLOTS + 1], call.session[SLOTS + 2]];
    let below = if is_bottom(top[0]) { random.below(4) } else { 1 + random.below(3) };
    let mut frames: Vec<Slot> = (0..below).map(|place| frame_below(place, label, random)).collect();
    frames.push(top);
    put_frames(&mut call, &frames);
    call.session[CHOICES] = random.below(2) as u32;
    if call.function.has_tables() {
        put_marks(&mut call, random.below(4), random.below(6));
        call.list += random.below(RECORD);
        call.end = if call.end == 0 { 0 } else { *random.pick(&[&1, &1, &1, &2, &u32::MAX]) };
    }
    if random.below(4) == 0 {
        let most = call.session[POSITION] as usize + 1;
        call.session[LINE] = 1 + random.below(most) as u32;
        call.session[COLUMN] = 1 + random.below(most) as u32;
    }
    if random.below(6) == 0 {
        let place = SLOTS + SLOT * (frames.len() + random.below(2));
        call.session[place] = random.below(12) as u32;
        call.session[place + 1] = random.below(70_000) as u32;
        call.session[place + 2] = random.below(90) as u32;
    }
    if random.below(20) == 0 {
        call.session.extend([7, 77]);
        call.answer += 2;
    }
    call
}

/// Whether a frame may stand at the bottom.
pub fn is_bottom(frame: u32) -> bool {
    frame != VAR_OFFSET && frame != LOOKING_FOR_PROPERTY
}

/// Any frame that may stand at the place; a label is the one byte at `label`.
fn frame_below(place: usize, label: u32, random: &mut Random) -> Slot {
    loop {
        let frame = random.below(9) as u32;
        if place > 0 || is_bottom(frame) {
            return if frame == HEREDOC || frame == NOWDOC { [frame, label, 1] } else { bare(frame) };
        }
    }
}
