//! Reached sessions: scripts walked from a fresh session on, with ample, exact and too small tables, and with other calls between.

use cases::call::{ANSWER, BYTES, POSITION, RECORD, TOKENS};
use cases::random::Random;
use cases::{Call, Function, Told};
use telling::session::MOST_BYTES;

use crate::forged::{any_choices, forged, new_call};
use crate::hold::Held;
use crate::sources::script;

/// A script's walk when it is over.
pub struct Walked {
    pub session: Vec<u32>,
    pub records: Vec<[u32; RECORD]>,
    pub values: Vec<u8>,
    /// The last step, which is finished or refused.
    pub end: Told,
}

/// Scripts walked to their end.
pub fn whole_scripts(held: &mut Held, count: usize, random: &mut Random) -> Result<(), String> {
    (0..count).try_for_each(|_| walk(held, &script(random), any_choices(random)).map(drop))
}

/// Walks a script to its end, with the end announced.
pub fn walk(held: &mut Held, script: &[u8], choices: usize) -> Result<Walked, String> {
    let mut call = begin(held, script, choices)?;
    let (mut records, mut values) = (Vec::new(), Vec::new());
    for _ in 0..most_steps(script) {
        lend_ample(&mut call);
        let told = held.hold(&call)?;
        if let Told::Done { finished, session, records: new, values: more, .. } = &told {
            call.session.clone_from(session);
            records.extend_from_slice(new);
            values.extend_from_slice(more);
            if !finished {
                continue;
            }
        }
        return Ok(Walked { session: call.session, records, values, end: told });
    }
    Err(format!("  a script of {} bytes is not walked to its end: {:?}", script.len(), script))
}

/// A step with the end announced, on a fresh session.
pub fn begin(held: &mut Held, script: &[u8], choices: usize) -> Result<Call, String> {
    let mut call = Call { session: vec![9; 199], ..new_call(Function::Fresh, vec![choices]) };
    if let Told::Done { session, .. } = held.hold_to(&call, 0)? {
        call =
            Call { session, answer: ANSWER, end: 1, source: script.to_vec(), ..new_call(Function::Step, Vec::new()) };
    }
    Ok(call)
}

/// A step that is done passes a byte, or is the one of LookingForVarname, which becomes Scripting.
pub fn most_steps(script: &[u8]) -> usize {
    2 * script.len() + 2
}

/// Room for any step.
pub fn lend_ample(call: &mut Call) {
    call.list = (call.number(TOKENS) + 2) * RECORD;
    call.pool = (call.number(BYTES) + call.source.len()).min(MOST_BYTES);
}

/// Steps with each list and pool that is too small, and then with just enough.
pub fn small_tables(held: &mut Held, count: usize, random: &mut Random) -> Result<(), String> {
    for _ in 0..count {
        let script = script(random);
        let mut call = begin(held, &script, any_choices(random))?;
        while let Some(session) = step_in_small_tables(held, &mut call, random)? {
            call.session = session;
        }
    }
    Ok(())
}

/// The session after the step, or none where there is no further step.
fn step_in_small_tables(held: &mut Held, call: &mut Call, random: &mut Random) -> Result<Option<Vec<u32>>, String> {
    lend_ample(call);
    let (tokens, bytes) = (call.number(TOKENS), call.number(BYTES));
    match held.hold(call)? {
        Told::Short | Told::Stopped { .. } => Ok(None),
        Told::Refused { number, .. } => {
            call.list = tokens * RECORD;
            call.pool = bytes;
            held.hold_to(call, number).map(|_| None)
        }
        Told::Done { finished, session, records, values, .. } => {
            for places in 0..records.len() {
                call.list = (tokens + places) * RECORD + random.below(RECORD);
                held.hold_to(call, 7)?;
                let ample = std::mem::replace(&mut call.pool, bytes);
                held.hold_to(call, 7)?;
                call.pool = ample;
            }
            call.list = (tokens + records.len()) * RECORD;
            for room in 0..values.len() {
                call.pool = bytes + room;
                held.hold_to(call, 8)?;
            }
            call.pool = bytes + values.len();
            held.hold_to(call, 0)?;
            Ok(Some(session).filter(|_| !finished))
        }
    }
}

/// Steps with walks of some steps, readings, skips, pushes and pops between them, and parts of the script beside each.
pub fn mixed_walks(held: &mut Held, count: usize, random: &mut Random) -> Result<(), String> {
    for _ in 0..count {
        let script = script(random);
        let mut call = begin(held, &script, any_choices(random))?;
        for _ in 0..most_steps(&script) {
            turn(&mut call, random);
            if call.function.has_tables() && random.below(2) == 0 {
                held.hold(&part_of(&call, random))?;
            }
            match held.hold(&call)? {
                Told::Done { session, finished: false, .. } | Told::Stopped { session, .. } => call.session = session,
                Told::Refused { .. } if random.below(3) > 0 => {}
                _ => break,
            }
        }
    }
    Ok(())
}

/// Another function on the same session, mostly the step.
fn turn(call: &mut Call, random: &mut Random) {
    call.function = Function::Step;
    call.arguments = Vec::new();
    if random.below(4) == 0 {
        let other = forged(random);
        call.function = other.function;
        call.arguments = other.arguments;
    }
    match call.function {
        Function::Skip => call.arguments = vec![random.below(3)],
        Function::Push if random.below(2) == 0 => {
            let place = call.number(POSITION);
            call.arguments = vec![random.below(9), random.below(place + 1), 1 + random.below(3)];
        }
        _ => {}
    }
    if call.function.has_tables() {
        lend_ample(call);
        if call.function == Function::Walk {
            call.list += random.below(8) * RECORD;
        }
        call.end = 1;
    } else {
        call.list = 0;
        call.pool = 0;
        call.end = 0;
    }
}

/// The same call with more announced, on a part of the source that the cursor lies in.
fn part_of(call: &Call, random: &mut Random) -> Call {
    let mut part = Call { end: 0, ..call.clone() };
    let position = call.number(POSITION);
    part.source.truncate(position + random.below((call.source.len() - position).min(8) + 1));
    part
}
