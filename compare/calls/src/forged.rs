//! Random calls on forged sessions: any session within its bounds, and such a call with something broken.

use cases::call::{ANSWER, BYTES, CHOICES, COLUMN, DEPTH, LINE, POSITION, RECORD, SESSION, SLOT, SLOTS, TOKENS};
use cases::random::Random;
use cases::{Call, Function};
use telling::bytes::{identifier_run, is_identifier, past, START};
use telling::session::{MOST_FRAMES, MOST_LABEL};

use crate::hold::Held;
use crate::sources::{fragment, script};

/// A number of frames, and a text block's two.
pub const FRAMES: usize = 9;
const TEXT_BLOCKS: [usize; 2] = [4, 5];

/// The choices are the numbers below this one, which is a flag of none.
const CHOSEN: usize = 4;

/// Of five calls two are steps, and one is a walk.
pub const FUNCTIONS: [Function; 15] = [
    Function::Step,
    Function::Step,
    Function::Step,
    Function::Step,
    Function::Step,
    Function::Step,
    Function::Walk,
    Function::Walk,
    Function::Walk,
    Function::ReadNumber,
    Function::ReadSingle,
    Function::ReadDouble,
    Function::Skip,
    Function::Push,
    Function::Pop,
];

/// Numbers at which a bound may lie.
const WILD: [u32; 14] = [0, 1, 2, 8, 9, 63, 64, 65, 65_535, 65_536, 65_537, 1 << 31, u32::MAX - 1, u32::MAX];

/// Calls on forged sessions that are good, but for tables that may be too small.
pub fn forged_sessions(held: &mut Held, count: usize, random: &mut Random) -> Result<(), String> {
    (0..count).try_for_each(|_| held.hold(&forged(random)).map(drop))
}

/// Calls of which a slice is too short or a number is changed.
pub fn broken_calls(held: &mut Held, count: usize, random: &mut Random) -> Result<(), String> {
    for _ in 0..count {
        let mut call = forged(random);
        for _ in 0..1 + random.below(2) {
            damage(&mut call, random);
        }
        held.hold(&call)?;
    }
    Ok(())
}

/// Fresh sessions, on slices of any length and content.
pub fn fresh_sessions(held: &mut Held, count: usize, random: &mut Random) -> Result<(), String> {
    for _ in 0..count {
        let length = [0, 1, 198, 199, 199, 199, 200, 260][random.below(8)];
        let session = (0..length).map(|_| random.number() as u32).collect();
        let choices = [any_choices(random), any_choices(random), no_choices(random), wild(random) as usize];
        let choices = choices[random.below(choices.len())];
        held.hold(&Call { session, ..new_call(Function::Fresh, vec![choices]) })?;
    }
    Ok(())
}

/// A call with nothing lent.
pub fn new_call(function: Function, arguments: Vec<usize>) -> Call {
    Call { function, arguments, end: 0, session: Vec::new(), list: 0, pool: 0, answer: 0, source: Vec::new() }
}

/// Any choices of a session.
pub fn any_choices(random: &mut Random) -> usize {
    random.below(CHOSEN)
}

/// Choices and a bit that is no flag.
fn no_choices(random: &mut Random) -> usize {
    any_choices(random) | CHOSEN << random.below(30)
}

pub fn wild(random: &mut Random) -> u32 {
    match random.below(4) {
        0 => random.number() as u32,
        _ => WILD[random.below(WILD.len())],
    }
}

/// A call on a session within its bounds.
pub fn forged(random: &mut Random) -> Call {
    let mut call = new_call(FUNCTIONS[random.below(FUNCTIONS.len())], Vec::new());
    call.source = source(random);
    call.session = session(&mut call.source, random);
    if call.function.has_tables() {
        let room = if random.below(4) == 0 { 0 } else { call.source.len() + 8 };
        call.end = [0, 1, 1, random.number() as u32][random.below(4)];
        let places = if call.function == Function::Walk { 12 } else { 4 };
        call.list = (call.number(TOKENS) + random.below(places)) * RECORD + random.below(RECORD);
        call.pool = call.number(BYTES) + room + random.below(4);
        if call.function.is_reading() && random.below(8) > 0 {
            let top = SLOTS + SLOT * (call.number(DEPTH) - 1);
            call.session[top] = 1;
        }
    }
    call.arguments = arguments(&call, random);
    let tells_steps = call.function == Function::Walk && random.below(2) == 0;
    call.answer = ANSWER + usize::from(tells_steps) + if random.below(16) == 0 { random.below(4) } else { 0 };
    call
}

fn source(random: &mut Random) -> Vec<u8> {
    match random.below(4) {
        0 => script(random),
        1 => [fragment(random), fragment(random)].concat(),
        _ => fragment(random),
    }
}

/// Numbers of a session within its bounds. The source may get a byte more, so that it has a label.
fn session(source: &mut Vec<u8>, random: &mut Random) -> Vec<u32> {
    let mut numbers = vec![0; SESSION + if random.below(16) == 0 { random.below(9) } else { 0 }];
    let depth = [MOST_FRAMES, MOST_FRAMES - 1, 1, 1, 1 + random.below(4), 2 + random.below(3)][random.below(6)];
    for slot in 0..depth {
        let frame = random.below(if slot == 0 { FRAMES - 2 } else { FRAMES });
        let lent = match TEXT_BLOCKS.contains(&frame) {
            true => {
                let (start, len) = label(source, random);
                [frame as u32, start as u32, len as u32]
            }
            // The numbers of a label that a frame does not have say nothing.
            false if random.below(16) == 0 => [frame as u32, wild(random), wild(random)],
            false => [frame as u32, 0, 0],
        };
        numbers[SLOTS + slot * SLOT..][..SLOT].copy_from_slice(&lent);
    }
    if random.below(4) == 0 {
        numbers[SLOTS + depth * SLOT..].iter_mut().for_each(|number| *number = wild(random));
    }
    let position = [0, random.below(source.len() + 1), source.len() - random.below(source.len().min(4) + 1)];
    let position = position[random.below(3)];
    let span = past(START, &source[..position]);
    let is_true = random.below(2) == 0;
    numbers[POSITION] = position as u32;
    numbers[LINE] = if is_true { span.line } else { 1 + random.below(position + 1) } as u32;
    numbers[COLUMN] = if is_true { span.column } else { 1 + random.below(position + 1) } as u32;
    numbers[DEPTH] = depth as u32;
    numbers[TOKENS] = random.below(4) as u32;
    numbers[BYTES] = random.below(6) as u32;
    numbers[CHOICES] = any_choices(random) as u32;
    numbers
}

/// A label in the source, mostly `E`, which the pieces close.
fn label(source: &mut Vec<u8>, random: &mut Random) -> (usize, usize) {
    let any = random.below(4) == 0;
    let places: Vec<usize> =
        (0..source.len()).filter(|place| source[*place] == b'E' || (any && is_identifier(source[*place]))).collect();
    if places.is_empty() {
        source.push(b'E');
        return (source.len() - 1, 1);
    }
    let start = places[random.below(places.len())];
    let most = identifier_run(&source[start..]).min(MOST_LABEL);
    (start, 1 + if any { random.below(most) } else { 0 })
}

/// What the call's function takes beside slices, mostly good.
pub fn arguments(call: &Call, random: &mut Random) -> Vec<usize> {
    match call.function {
        Function::Walk => vec![most(random)],
        Function::Skip => {
            let left = call.source.len() - call.number(POSITION);
            vec![[random.below(left + 1), left, left + 1, random.number() as usize, usize::MAX][random.below(5)]]
        }
        Function::Push => {
            let (start, len) = label(&mut call.source.clone(), random);
            let frame = random.below(FRAMES + 1);
            match random.below(4) {
                0 => vec![frame, start, random.below(MOST_LABEL + 3)],
                1 => vec![wild(random) as usize, wild(random) as usize, wild(random) as usize],
                _ => vec![frame, start, len],
            }
        }
        _ => Vec::new(),
    }
}

/// How many steps a walk may make: none, few, or more than any script has.
pub fn most(random: &mut Random) -> usize {
    [0, 1, 2, 2 + random.below(4), 2 + random.below(20), u32::MAX as usize, u32::MAX as usize][random.below(7)]
}

/// Breaks one thing.
fn damage(call: &mut Call, random: &mut Random) {
    let depth = call.number(DEPTH);
    let slot = SLOTS + SLOT * random.below(depth.max(1).min(MOST_FRAMES));
    let (place, number) = match random.below(11) {
        0 => return call.session.truncate(random.below(SESSION)),
        1 => return call.answer = random.below(ANSWER),
        2 => (POSITION, call.source.len() + random.below(3)),
        3 => (TOKENS, call.list / RECORD + 1),
        4 => (BYTES, call.pool + 1),
        5 => (SLOTS, 7 + random.below(2)),
        6 => (slot + 1, random.below(call.source.len() + 2)),
        7 => (slot + 2, random.below(MOST_LABEL + 2)),
        8 => (slot + random.below(SLOT), wild(random) as usize),
        9 => (CHOICES, no_choices(random)),
        _ => (random.below(SLOTS), wild(random) as usize),
    };
    if let Some(lent) = call.session.get_mut(place) {
        *lent = number as u32;
    }
}
