//! Walks in one call: whole scripts at once, in walks of any length, in tables that fill on the way, and in parts; each must
//! give what the steps one by one give.

use cases::call::{ANSWER, BYTES, RECORD, TOKENS};
use cases::hex::shown;
use cases::random::Random;
use cases::{Call, Function, Told};
use telling::session::{MOST_BYTES, MOST_TOKENS};

use crate::cuts::random_cuts;
use crate::forged::{any_choices, most};
use crate::hold::Held;
use crate::limits::{standing, top};
use crate::sources::script;
use crate::walks::{begin, lend_ample, most_steps, walk, Walked};

const WAIT: u32 = 6;
const LIST_FULL: u32 = 7;
const POOL_FULL: u32 = 8;
const HUGE: usize = u32::MAX as usize;
const SCRIPTING: u32 = 1;

/// What stands after a byte that is walked over.
const BEHIND: [&[u8]; 12] = [b"", b";", b"a", b"1", b"'", b"\"", b"{", b"}", b">", b"<<E\n", b".5", b"\n"];

/// How a script is walked: with any number of steps in a call or all, with tables of any size or room for all, and cut where.
struct Way {
    has_any_most: bool,
    has_any_tables: bool,
    cuts: Vec<usize>,
}

pub fn walks_in_one_call(held: &mut Held, count: usize, random: &mut Random) -> Result<(), String> {
    every_byte(held)?;
    (0..count).try_for_each(|_| leap(held, &script(random), any_choices(random), random))
}

/// Every byte at Scripting after a step, with a byte after it that may settle it, as a whole and as a part.
fn every_byte(held: &mut Held) -> Result<(), String> {
    for byte in 0..=255 {
        for behind in BEHIND {
            let mut call = standing(Function::Walk, &[b";", &[byte][..], behind].concat(), 0, 2, top(SCRIPTING, 0));
            call.arguments = vec![HUGE];
            call.list = 4 * RECORD;
            call.pool = 4;
            held.hold(&call)?;
            call.end = 1;
            held.hold(&call)?;
        }
    }
    Ok(())
}

/// Steps a script to its end, then walks it in each way.
pub fn leap(held: &mut Held, script: &[u8], choices: usize, random: &mut Random) -> Result<(), String> {
    let stepped = walk(held, script, choices)?;
    let ways = [
        Way { has_any_most: false, has_any_tables: false, cuts: Vec::new() },
        Way { has_any_most: true, has_any_tables: false, cuts: Vec::new() },
        Way { has_any_most: false, has_any_tables: true, cuts: Vec::new() },
        Way { has_any_most: false, has_any_tables: false, cuts: random_cuts(script, random) },
        Way { has_any_most: true, has_any_tables: true, cuts: random_cuts(script, random) },
    ];
    ways.iter().try_for_each(|way| {
        let walked = walked_so(held, script, choices, way, random)?;
        same(script, &stepped, &walked)
    })
}

/// Walks a script to its end in one way; what was taken out of the tables on the way is put together again.
fn walked_so(held: &mut Held, script: &[u8], choices: usize, way: &Way, random: &mut Random) -> Result<Walked, String> {
    let mut call = begin(held, script, choices)?;
    call.function = Function::Walk;
    call.answer = ANSWER + 1;
    let mut cuts = way.cuts.iter();
    let mut is_stuck = false;
    let (mut records, mut values) = (Vec::new(), Vec::new());
    lend_part(&mut call, script, cuts.next());
    for _ in 0..most_calls(script, way) {
        call.arguments = vec![if way.has_any_most { most(random) } else { HUGE }];
        lend_tables(&mut call, script, way.has_any_tables && !is_stuck, random);
        let told = held.hold(&call)?;
        is_stuck = told.written().is_none() && call.session[TOKENS..=BYTES] == [0, 0];
        if let Some((session, new, more)) = told.written() {
            let taken = (values.len() - call.number(BYTES)) as u32;
            records.extend(new.iter().map(|record| moved(*record, taken)));
            values.extend_from_slice(more);
            call.session = session.to_vec();
        }
        match (told.refusal().0, &told) {
            (0, Told::Done { finished: false, .. }) => {}
            (WAIT, _) if call.end == 0 => lend_part(&mut call, script, cuts.next()),
            (LIST_FULL | POOL_FULL, _) => call.session[TOKENS..=BYTES].fill(0),
            _ => {
                call.session[TOKENS] = records.len() as u32;
                call.session[BYTES] = values.len() as u32;
                return Ok(Walked { session: call.session, records, values, end: told });
            }
        }
    }
    Err(format!("  script {} is not walked to its end, with cuts at {:?}", shown(script), way.cuts))
}

/// One call is enough for a script at once, with one more for each cut; else a bound for what chance may need.
fn most_calls(script: &[u8], way: &Way) -> usize {
    match way.has_any_most || way.has_any_tables {
        false => 1 + way.cuts.len(),
        true => 100 + 4 * (most_steps(script) + way.cuts.len()),
    }
}

/// The script up to a cut with more announced, or all of it.
fn lend_part(call: &mut Call, script: &[u8], cut: Option<&usize>) {
    call.source = script[..*cut.unwrap_or(&script.len())].to_vec();
    call.end = u32::from(cut.is_none());
}

/// Room for the whole script, or a few places and bytes, in which not even a step may fit.
fn lend_tables(call: &mut Call, script: &[u8], is_any: bool, random: &mut Random) {
    if is_any {
        call.list = (call.number(TOKENS) + random.below(4)) * RECORD;
        call.pool = (call.number(BYTES) + random.below(16)).min(MOST_BYTES);
    } else {
        lend_ample(call);
        call.list = (call.number(TOKENS) + 2 * most_steps(script)).min(MOST_TOKENS) * RECORD;
    }
}

/// A record whose value stands further on.
fn moved(mut record: [u32; RECORD], by: u32) -> [u32; RECORD] {
    record[5] += by;
    record
}

/// Whether walks came to what the steps came to.
fn same(script: &[u8], stepped: &Walked, walked: &Walked) -> Result<(), String> {
    let is_finished = |end: &Told| matches!(end, Told::Done { finished: true, .. });
    let is_same = stepped.session == walked.session
        && stepped.records == walked.records
        && stepped.values == walked.values
        && stepped.end.refusal() == walked.end.refusal()
        && is_finished(&stepped.end) == is_finished(&walked.end);
    if is_same {
        return Ok(());
    }
    let said = |of: &Walked| format!("{:?} {:?} {:?}", of.end.refusal(), of.records, &of.session[..10]);
    Err(format!("  script {}\n  stepped {}\n  walked  {}", shown(script), said(stepped), said(walked)))
}

/// Scripts of 65,536 bytes with very many steps, in one call: all of them, some, and where each byte is a step just so many and
/// one fewer.
pub fn long_walks(held: &mut Held, count: usize, random: &mut Random) -> Result<(), String> {
    let fillers: [&[u8]; 4] = [b"\n", b";\n", b"ab\n ", b"\x80 7."];
    for _ in 0..count {
        let mut script = b"<?php ".to_vec();
        let filler = random.pick(&fillers);
        script.extend(filler.iter().cycle().take(MOST_BYTES - script.len()));
        let mut call = begin(held, &script, any_choices(random))?;
        call.function = Function::Walk;
        call.list = MOST_TOKENS * RECORD;
        call.pool = MOST_BYTES;
        for most in [HUGE, MOST_BYTES - 3, MOST_BYTES - 4, random.below(MOST_BYTES)] {
            call.arguments = vec![most];
            held.hold(&call)?;
        }
    }
    Ok(())
}
