//! Look-ups in lists that were filled from empty, by steps, walks and readings with skip, push and pop between, each
//! on the session that the last one left. List and pool may be others at each call, and hold what was filled.

use std::cmp::Ordering;

use cases::call::{list_pattern, pool_pattern, ANSWER, BYTES, POSITION, RECORD, SESSION, SLOTS, TOKENS};
use cases::call::{RECORD_END, RECORD_POSITION};
use cases::hex::shown;
use cases::lookup::{FOUND, FOUND_ENDED};
use cases::random::Random;
use cases::{Call, Function, Lookup};
use host::Slices;
use telling::find::{ends_never_fall, never_falls};
use telling::session::{MOST_BYTES, MOST_TOKENS};

use crate::ends::bear;
use crate::finds::{Finds, ENDS};
use crate::forged::{self, any_choices, forged, new_call, wild, FRAMES, FUNCTIONS};
use crate::hold::Held;
use crate::lists::any_found;
use crate::sources::{self, script};

/// A list has at most so many places, and a pool so many bytes.
const PLACES: usize = 100;
const ROOM: usize = 4_096;

/// So many calls fill a list.
const MOST_CALLS: usize = 50;

/// A skip between the calls passes at most so many bytes.
const MOST_SKIPPED: usize = 3;

/// Done, or a refusal after which the same script may go on: a wait, tables that are full, a call that does not fit.
const GOES_ON: [u32; 5] = [0, 6, 7, 8, 10];

/// What must have come between the calls that were done. Frame 9 is none; 4 and 5 have a label, which may be bad.
const BETWEEN: [&str; 13] = [
    "a filling call refused with 1",
    "a filling call refused with 6",
    "a filling call refused with 7",
    "a filling call refused with 8",
    "a filling call refused with 10",
    "a filling call refused with 12",
    "skip done",
    "skip refused with 10",
    "push of frame 4 refused with 10",
    "push of frame 5 refused with 10",
    "push of frame 9 refused with 10",
    "pop done",
    "pop refused with 10",
];

/// Which tables are lent: those of the call before, or others that are shorter, as long or longer. On each a call must
/// have written after what earlier ones had.
const LISTS: [&str; 4] = ["the same list", "a shorter list", "another list as long", "a longer list"];
const POOLS: [&str; 4] = ["the same pool", "a shorter pool", "another pool as long", "a longer pool"];

/// What the longest scripts are filled with: a record for every two bytes, and three for every four.
const FILLERS: [&[u8]; 2] = [b"7 ", b"\"$a\""];

/// So many bytes are looked up in a long list.
const LONG_BYTES: usize = 50;

/// A session and its tables, which calls fill, and the source of the next.
#[derive(Clone)]
struct Filling {
    call: Call,
    session: Vec<u32>,
    list: Vec<u32>,
    pool: Vec<u8>,
}

pub fn filled_lists(held: &mut Held, count: usize, random: &mut Random) -> Result<(), String> {
    let mut finds = Finds::new(held);
    for _ in 0..count {
        let filling = filled(&mut finds, random)?;
        look_everywhere(&mut finds, &filling, random)?;
    }
    FILLERS.iter().try_for_each(|filler| long_list(&mut finds, filler, random))?;
    finds.must_meet(&BETWEEN)?;
    finds.must_meet(&[LISTS, POOLS].concat())?;
    (0..FRAMES).try_for_each(|frame| finds.must_meet(&[&format!("push of frame {} done", frame)]))?;
    finds.must_meet(&["refusal 10", "refusal 12", "none", "a record", "a session that is not fresh"])?;
    finds.must_meet(&["equal positions", "equal ends", "a walk of more ends than one"])?;
    finds.must_meet(&ENDS)
}

/// A list filled from a token mark of 0, with refusals, skip, push and pop between.
fn filled(finds: &mut Finds, random: &mut Random) -> Result<Filling, String> {
    let mut filling = begun(finds, random);
    let mut script = [filling.call.source.clone(), script(random)].concat();
    for _ in 0..1 + random.below(MOST_CALLS) {
        lend_source(&mut filling.call, &script, random);
        filling.call.function = FUNCTIONS[random.below(FUNCTIONS.len())];
        filling.call.arguments = arguments(&filling.call, random);
        let lent = filling.lend_tables(random);
        let was = filling.clone();
        let number = filling.go_on(lent, finds);
        filling.hold_ends(&was, finds)?;
        finds.meet(&came_to(&filling.call, number));
        if !GOES_ON.contains(&number) {
            script = other_from(&script, filling.session[POSITION] as usize, random);
        }
    }
    Ok(filling)
}

/// What the call's function takes beside slices; a skip's count is small, and may pass the end.
fn arguments(call: &Call, random: &mut Random) -> Vec<usize> {
    match call.function {
        Function::Skip => vec![random.below(MOST_SKIPPED + 1)],
        _ => forged::arguments(call, random),
    }
}

/// What a call came to, by its refusal or 0, in the words of what must be met.
fn came_to(call: &Call, number: u32) -> String {
    let name = match call.function {
        Function::Push => format!("push of frame {}", call.arguments[0]),
        Function::Skip | Function::Pop => call.function.name().to_string(),
        _ => "a filling call".to_string(),
    };
    match number {
        0 => format!("{} done", name),
        _ => format!("{} refused with {}", name, number),
    }
}

/// More of the script than before, up to all of it; or another source, which may be shorter than the cursor's place.
fn lend_source(call: &mut Call, script: &[u8], random: &mut Random) {
    let cut = call.source.len() + random.below(script.len() / 4 + 2);
    call.source = script[..cut.min(script.len())].to_vec();
    call.end = u32::from(cut >= script.len());
    if random.below(8) == 0 {
        call.source = other_from(script, random.below(script.len() + 1), random);
        call.end = random.below(2) as u32;
    }
}

/// The script up to a place, and another one from there on.
fn other_from(script: &[u8], place: usize, random: &mut Random) -> Vec<u8> {
    [script.get(..place).unwrap_or(script), &sources::script(random)].concat()
}

/// A fresh session, or any good one with a token mark of 0, and nothing in its list.
fn begun(finds: &mut Finds, random: &mut Random) -> Filling {
    let mut call = Call { session: vec![0; SESSION], ..new_call(Function::Step, Vec::new()) };
    if random.below(3) == 0 {
        finds.meet("a session that is not fresh");
        let other = forged(random);
        call = Call { session: other.session, source: other.source, ..call };
        call.session[TOKENS] = 0;
    } else {
        host::fresh(any_choices(random) as u32, &mut call.session);
    }
    let list = (0..PLACES * RECORD).map(list_pattern).collect();
    let pool = (0..ROOM).map(pool_pattern).collect();
    Filling { session: std::mem::take(&mut call.session), call, list, pool }
}

impl Filling {
    /// Half of the time, other tables: they hold the records and values up to the marks, and then one number again and
    /// again, with little room, some or much.
    fn lend_tables(&mut self, random: &mut Random) -> [&'static str; 2] {
        if random.below(2) == 0 {
            return [LISTS[0], POOLS[0]];
        }
        let [tokens, bytes] = self.marks();
        let places = [tokens + random.below(3), tokens + random.below(PLACES), PLACES, PLACES][random.below(4)];
        let length = places.min(PLACES) * RECORD + random.below(RECORD);
        let room = [bytes + random.below(6), bytes + random.below(ROOM), ROOM, ROOM][random.below(4)].min(ROOM);
        let lent = [LISTS[against(length, self.list.len())], POOLS[against(room, self.pool.len())]];
        self.list.truncate(tokens * RECORD);
        self.list.resize(length, wild(random));
        self.pool.truncate(bytes);
        self.pool.resize(room, random.number() as u8);
        lent
    }

    /// Makes the call; its refusal or 0. Tables that held something and now hold more are met.
    fn go_on(&mut self, lent: [&str; 2], finds: &mut Finds) -> u32 {
        let before = self.marks();
        let number = self.make(finds)[1];
        for (table, mark) in self.marks().into_iter().enumerate() {
            if before[table] > 0 && mark > before[table] {
                finds.meet(lent[table]);
            }
        }
        number
    }

    /// Makes the call; the first numbers of its answer: done or not, and the refusal or 0.
    fn make(&mut self, finds: &mut Finds) -> [u32; 2] {
        let mut answer = [0; ANSWER];
        let slices = Slices {
            source: &self.call.source,
            session: &mut self.session,
            list: &mut self.list,
            pool: &mut self.pool,
            answer: &mut answer,
        };
        let number = host::make_on(&self.call, slices);
        finds.made();
        [answer[0], number]
    }

    /// Holds the records before the mark to what they were, and each one after it to where its step or reading ended.
    /// The steps of a walk are made one by one on the tables as they were, and must fill them alike.
    fn hold_ends(&self, was: &Filling, finds: &mut Finds) -> Result<(), String> {
        let filled = was.marks()[0] * RECORD;
        let new = &self.list[filled..self.marks()[0] * RECORD];
        let is_kept = self.list[..filled] == was.list[..filled];
        let is_right = match self.call.function {
            Function::Walk => was.clone().steps_to(self, finds),
            _ => bear(new, self.session[POSITION]),
        };
        let ends: Vec<u32> = new.chunks_exact(RECORD).map(|record| record[RECORD_END]).collect();
        if ends.windows(2).any(|pair| pair[0] != pair[1]) {
            finds.meet("a walk of more ends than one");
        }
        if is_kept && is_right {
            return Ok(());
        }
        let wrong = if is_kept { "does not end where its steps do" } else { "changes an earlier record" };
        let (call, position) = (was.as_line(), self.session[POSITION]);
        Err(format!(
            "  call  {}\n  on a filled list {}: ends {:?}, and the session is at {}",
            call, wrong, ends, position
        ))
    }

    /// The call that is made next, as a line.
    fn as_line(&self) -> String {
        let (list, pool) = (self.list.len(), self.pool.len());
        let call = Call { session: self.session.clone(), list, pool, answer: ANSWER, ..self.call.clone() };
        let mut line = Vec::new();
        call.write(&mut line);
        String::from_utf8_lossy(&line).into_owned()
    }

    /// Makes the steps of a walk one by one; whether each record bears the session's position after its step, and all
    /// comes to what the walk came to.
    fn steps_to(&mut self, walked: &Filling, finds: &mut Finds) -> bool {
        let most = std::mem::take(&mut self.call.arguments)[0];
        self.call.function = Function::Step;
        for _ in 0..most {
            let filled = self.marks()[0] * RECORD;
            let answer = self.make(finds);
            if !bear(&self.list[filled..self.marks()[0] * RECORD], self.session[POSITION]) {
                return false;
            }
            if answer != [0, 0] {
                break;
            }
        }
        (&self.session, &self.list, &self.pool) == (&walked.session, &walked.list, &walked.pool)
    }

    /// How many records and value bytes are in the tables.
    fn marks(&self) -> [usize; 2] {
        [self.session[TOKENS] as usize, self.session[BYTES] as usize]
    }
}

/// The place in `LISTS` or `POOLS` of another table, by its length and that of the one before.
fn against(length: usize, before: usize) -> usize {
    match length.cmp(&before) {
        Ordering::Less => 1,
        Ordering::Equal => 2,
        Ordering::Greater => 3,
    }
}

/// Every byte up to past the end, with all records and with fewer; then a call for each refusal.
fn look_everywhere(finds: &mut Finds, filling: &Filling, random: &mut Random) -> Result<(), String> {
    let [mark, _] = filling.marks();
    let length = (mark + random.below(3)) * RECORD + random.below(RECORD);
    let list = filling.list[..length.min(filling.list.len())].to_vec();
    let mut lookup = Lookup { list, count: mark, byte: 0, found: any_found(random) };
    if !never_falls(&lookup) || !ends_never_fall(&lookup) {
        let (session, source) = (&filling.session[..SLOTS], shown(&filling.call.source));
        let places = (lookup.given(RECORD_POSITION), lookup.given(RECORD_END));
        return Err(format!("  a filled list falls: {:?}\n  session {:?}, source {}", places, session, source));
    }
    if (1..mark).any(|record| lookup.position(record - 1) == lookup.position(record)) {
        finds.meet("equal positions");
    }
    if (1..mark).any(|record| lookup.end(record - 1) == lookup.end(record)) {
        finds.meet("equal ends");
    }
    let end = filling.call.source.len().max(filling.session[POSITION] as usize);
    for byte in (0..=end + 2).chain([usize::MAX]) {
        lookup.byte = byte;
        for count in [mark, random.below(mark + 1), random.below(mark + 1)] {
            lookup.count = count;
            finds.hold(&lookup)?;
        }
    }
    finds.hold(&Lookup { count: lookup.places() + 1, ..lookup.clone() })?;
    finds.hold(&Lookup { found: random.below(FOUND), ..lookup }).map(drop)
}

/// The list of a script of 65,536 bytes, walked in one call, at random bytes.
fn long_list(finds: &mut Finds, filler: &[u8], random: &mut Random) -> Result<(), String> {
    let source: Vec<u8> = b"<?php ".iter().chain(filler.iter().cycle()).copied().take(MOST_BYTES).collect();
    let call = Call { source, ..new_call(Function::Walk, vec![u32::MAX as usize]) };
    let (mut session, mut list) = (vec![0; SESSION], vec![0; MOST_TOKENS * RECORD]);
    host::fresh(0, &mut session);
    let (pool, answer) = (&mut vec![0; MOST_BYTES], &mut [0; ANSWER]);
    host::make_on(&call, Slices { source: &call.source, session: &mut session, list: &mut list, pool, answer });
    finds.made();
    let count = session[TOKENS] as usize;
    if count < MOST_BYTES / 3 {
        return Err(format!("  a script of {} has {} records, which are too few", shown(filler), count));
    }
    let mut lookup = Lookup { list, count, byte: 0, found: FOUND_ENDED };
    for _ in 0..LONG_BYTES {
        lookup.byte = random.below(MOST_BYTES + 2);
        finds.hold(&lookup)?;
    }
    Ok(())
}
