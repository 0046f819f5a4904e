//! Scripts that come in parts, with one session, list and pool: they must give what the uncut walk gives.

use cases::call::RECORD;
use cases::hex::shown;
use cases::random::Random;
use cases::{Call, Given, Told};
use host::Slices;

use crate::forged::any_choices;
use crate::hold::Held;
use crate::smaller::{drop_parts, moved, without_bytes};
use crate::sources::script;
use crate::walks::{begin, most_steps, walk, Walked};

/// Each script is cut in so many ways.
const WAYS: usize = 3;
const MOST_CUTS: usize = 5;
const WAIT: u32 = 6;

/// A script with more bytes is not cut after each of them.
const MOST_CUT_EVERYWHERE: usize = 1000;

pub fn cut_scripts(held: &mut Held, count: usize, random: &mut Random) -> Result<(), String> {
    (0..count).try_for_each(|_| cut_script(held, &script(random), any_choices(random), random))
}

/// Walks a script uncut, then cut after each byte and at random places.
pub fn cut_script(held: &mut Held, script: &[u8], choices: usize, random: &mut Random) -> Result<(), String> {
    let walked = walk(held, script, choices)?;
    for way in 0..WAYS {
        let everywhere = way == 0 && script.len() <= MOST_CUT_EVERYWHERE;
        let cuts = if everywhere { (0..script.len()).collect() } else { random_cuts(script, random) };
        if compare(held, script, &cuts, choices, &walked)?.is_some() {
            return Err(smallest(held, script.to_vec(), cuts, choices));
        }
    }
    Ok(())
}

pub fn random_cuts(script: &[u8], random: &mut Random) -> Vec<usize> {
    let mut cuts: Vec<usize> = (0..1 + random.below(MOST_CUTS)).map(|_| random.below(script.len() + 1)).collect();
    cuts.sort_unstable();
    cuts
}

/// What the uncut and the cut script gave, if that is not the same.
fn compare(
    held: &mut Held,
    script: &[u8],
    cuts: &[usize],
    choices: usize,
    walked: &Walked,
) -> Result<Option<(String, String)>, String> {
    let mut call = begin(held, script, choices)?;
    call.list = walked.records.len() * RECORD;
    call.pool = walked.values.len();
    let expected = given_by(&call, walked);
    let got = fed(held, &call, cuts);
    let said = |given: &Given| {
        let mut out = Vec::new();
        given.write(&call, &mut out);
        String::from_utf8_lossy(&out).into_owned()
    };
    Ok((expected != got).then(|| (said(&expected), said(&got))))
}

/// All that an uncut walk leaves, in tables with just enough room.
fn given_by(call: &Call, walked: &Walked) -> Given {
    let Walked { session, records, values, end } = walked;
    let (session, records, values) = (session.clone(), records.clone(), values.clone());
    let all = Told::Done { finished: true, session, records, values, steps: None };
    let mut given = all.given(call);
    if let Told::Refused { number, .. } = end {
        given.number = *number;
        given.answer = end.given(call).answer;
    }
    given
}

/// Steps each part up to a wait, and the whole script last.
fn fed(held: &mut Held, call: &Call, cuts: &[usize]) -> Given {
    let mut lent = Given::before(call);
    let mut steps = most_steps(&call.source) + cuts.len();
    for (index, end) in cuts.iter().chain([&call.source.len()]).enumerate() {
        let is_last = index == cuts.len();
        let step = Call { end: u32::from(is_last), source: Vec::new(), session: Vec::new(), ..call.clone() };
        loop {
            held.made();
            lent.number = host::make_on(
                &step,
                Slices {
                    source: &call.source[..*end],
                    session: &mut lent.session,
                    list: &mut lent.list,
                    pool: &mut lent.pool,
                    answer: &mut lent.answer,
                },
            );
            steps = steps.saturating_sub(1);
            if lent.number == WAIT && !is_last {
                break;
            }
            if lent.number != 0 || lent.answer[0] != 0 || steps == 0 {
                return lent;
            }
        }
    }
    lent
}

/// Both answers to a smaller script and to fewer cuts, where these fail too.
fn smallest(held: &mut Held, script: Vec<u8>, cuts: Vec<usize>, choices: usize) -> String {
    let mut best = (script, cuts);
    let mut apart = |(script, cuts): &(Vec<u8>, Vec<usize>)| {
        let walked = walk(held, script, choices).ok()?;
        compare(held, script, cuts, choices, &walked).ok()?
    };
    let without_cut = |(script, cuts): &(Vec<u8>, Vec<usize>), start: usize, width: usize| {
        let behind = (start + width).min(cuts.len());
        (script.clone(), [&cuts[..start], &cuts[behind..]].concat())
    };
    drop_parts(&mut best, |(_, cuts)| cuts.len(), without_cut, |tried| apart(tried).is_some());
    drop_parts(&mut best, |(script, _)| script.len(), without, |tried| apart(tried).is_some());
    let (uncut, cut) = apart(&best).unwrap_or_default();
    let (script, cuts) = best;
    format!("  script {} cut at {:?}, choices {}\n  uncut {}\n  cut   {}", shown(&script), cuts, choices, uncut, cut)
}

/// The script without some bytes; each cut stays beside its bytes.
fn without((script, cuts): &(Vec<u8>, Vec<usize>), start: usize, width: usize) -> (Vec<u8>, Vec<usize>) {
    let width = width.min(script.len() - start);
    (without_bytes(script, start, width), cuts.iter().map(|cut| moved(*cut, start, width)).collect())
}
