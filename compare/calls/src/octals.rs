//! Octal escapes under both choices (document 02, P5): each call again under the other choice; and all of `\000` to
//! `\777` in each routine that has such escapes.

use cases::call::{BYTES, CHOICES, OCTAL_MANUAL, RECORD, TOKENS};
use cases::random::Random;
use cases::{Call, Function, Given, Told};

use crate::forged::any_choices;
use crate::hold::Held;
use crate::limits::{standing, top};
use crate::sources::octal_text;

const OVERFLOW: u32 = 3;

/// How many numbers three octal digits write, and how many of them are bytes.
const NUMBERS: usize = 512;
const BYTE_NUMBERS: usize = 256;

/// The text stands after this, which has the label of heredocs.
const BEFORE: &[u8] = b"E\n";

/// A function with a frame on top, and what opens and ends a text there.
const ROUTINES: [(Function, u32, &[u8], &[u8]); 9] = [
    (Function::ReadDouble, 1, b"", b"\""),
    (Function::ReadDouble, 1, b"", b"$a"),
    (Function::Step, 1, b"\"", b"\""),
    (Function::Step, 1, b"\"", b"{$a"),
    (Function::Step, 2, b"", b"\""),
    (Function::Step, 2, b"", b"$a;"),
    (Function::Step, 4, b"", b"x\nE"),
    (Function::Step, 4, b"", b"x$a;"),
    (Function::Walk, 4, b"", b"x{$a"),
];

/// One random text in so many is about as long as what a step keeps of a text before it reads it again.
const LONG_OF: usize = 8;
const LONG: usize = 256;

/// What stands after an escape or the beginning of one: nothing, digits, and what may begin something.
const BEHIND: [&[u8]; 9] = [b"", b"0", b"7", b"8", b"\"", b"$a", b"{$", b"\nE", b"\\400"];

/// Makes the call again under the other choice; whether the Rust's gives 3, or what is wrong. Under the manual's it is
/// never 3. Where the Rust's is not 3, both give the same but for the choice; where it is, the same up to there.
pub fn under_both(call: &Call, given: &Given) -> Result<bool, String> {
    let other = host::make(&turned(call))?;
    let (rust, manual) = if is_manual(call) { (&other, given) } else { (given, &other) };
    let wrong = |what: &str| Err(what.to_string());
    if manual.number == OVERFLOW {
        return wrong("under the manual's choice for octal escapes it is 3");
    }
    if rust.number == OVERFLOW {
        let (records, bytes) = (rust.session[TOKENS] as usize * RECORD, rust.session[BYTES] as usize);
        let is_begun = manual.list.starts_with(&rust.list[..records]) && manual.pool.starts_with(&rust.pool[..bytes]);
        return if is_begun { Ok(true) } else { wrong("what stands before a 3 is another under the manual's choice") };
    }
    if !are_alike(rust, manual) || other.session != under_other(call, given) {
        return wrong("it is no 3 under the Rust's choice for octal escapes, and another thing under the manual's");
    }
    Ok(false)
}

/// Whether calls give the same, but for the session.
fn are_alike(one: &Given, other: &Given) -> bool {
    (one.number, &one.answer, &one.list, &one.pool) == (other.number, &other.answer, &other.list, &other.pool)
}

/// The same call under the other choice for octal escapes.
fn turned(call: &Call) -> Call {
    let mut other = call.clone();
    if call.function == Function::Fresh {
        other.arguments[0] ^= OCTAL_MANUAL;
    } else {
        turn_choice(&mut other.session);
    }
    other
}

fn turn_choice(session: &mut [u32]) {
    if let Some(choices) = session.get_mut(CHOICES) {
        *choices ^= OCTAL_MANUAL as u32;
    }
}

/// Whether the call's choice for octal escapes is the manual's.
pub fn is_manual(call: &Call) -> bool {
    let choices = if call.function == Function::Fresh { call.arguments[0] } else { call.number(CHOICES) };
    choices & OCTAL_MANUAL != 0
}

/// The session's slice that the call must leave under the other choice. A refused `fresh` leaves it as it was.
fn under_other(call: &Call, given: &Given) -> Vec<u32> {
    let mut session = given.session.clone();
    if call.function != Function::Fresh || given.number == 0 {
        turn_choice(&mut session);
    }
    session
}

/// All of `\000` to `\777` in each routine, whole and cut, with something after them; then random texts.
pub fn octal_escapes(held: &mut Held, count: usize, random: &mut Random) -> Result<(), String> {
    for routine in ROUTINES {
        for number in 0..NUMBERS {
            counted(held, routine, number)?;
            every_end(held, routine, number, random)?;
        }
    }
    for _ in 0..count {
        let routine = ROUTINES[random.below(ROUTINES.len())];
        let filler = if random.below(LONG_OF) == 0 { LONG - 16 + random.below(32) } else { 0 };
        let text = [&vec![b'x'; filler], &octal_text(random)[..], routine.3].concat();
        let mut call = on(routine, &text, any_choices(random));
        if random.below(4) == 0 {
            call.end = 0;
            call.source.truncate(call.source.len() - random.below(routine.3.len() + 4).min(call.source.len() - 2));
        }
        held.hold(&call)?;
    }
    Ok(())
}

/// A call of a routine at a text, with the end announced and ample room.
fn on((function, frame, open, _): (Function, u32, &[u8], &[u8]), text: &[u8], choices: usize) -> Call {
    let source = [BEFORE, open, text].concat();
    let mut call = standing(function, &source, BEFORE.len(), 2, top(frame, 1));
    call.arguments = if function == Function::Walk { vec![1] } else { Vec::new() };
    call.session[CHOICES] = choices as u32;
    call.list = 2 * RECORD;
    call.pool = source.len();
    call.end = 1;
    call
}

/// A text with the escape of a number under each choice, held to what the number says: the byte of its low eight bits,
/// or 3 after the third digit.
fn counted(held: &mut Held, routine: (Function, u32, &[u8], &[u8]), number: usize) -> Result<(), String> {
    let text = [format!("\\{:03o}", number).as_bytes(), routine.3].concat();
    for choices in 0..4 {
        let call = on(routine, &text, choices);
        let told = held.hold(&call)?;
        let is_right = match told {
            Told::Refused { number: OVERFLOW, span } => {
                let end = call.source.len() - routine.3.len();
                number >= BYTE_NUMBERS && !is_manual(&call) && span.position == end
            }
            _ => {
                let byte = (number % BYTE_NUMBERS) as u8;
                let values = told.written().map_or(&[][..], |(_, _, values)| values);
                (number < BYTE_NUMBERS || is_manual(&call)) && values.first() == Some(&byte)
            }
        };
        if !is_right {
            return Err(format!("  \\{:03o} in {:?}\n  is told and given alike, but as {:?}", number, call, told));
        }
    }
    Ok(())
}

/// The escape of a number and what may stand after it, whole and as a part; and its first digit, or two, in its place.
fn every_end(
    held: &mut Held,
    routine: (Function, u32, &[u8], &[u8]),
    number: usize,
    random: &mut Random,
) -> Result<(), String> {
    let escape = format!("\\{:03o}", number).into_bytes();
    for (length, every) in [(4, 1), (3, 8), (2, 64)] {
        for behind in BEHIND.iter().filter(|_| number % every == 0) {
            let mut call = on(routine, &[&escape[..length], behind].concat(), any_choices(random));
            held.hold(&call)?;
            call.end = 0;
            held.hold(&call)?;
        }
    }
    Ok(())
}
