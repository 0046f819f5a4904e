//! Comments beside the Rust's own `scripting`: each text begins one, or with `#[`. What the library gives is what the Rust reads, but for
//! three differences: the Rust takes the LF after a comment, closes `/*/`, and ends an open `/*` with the source.

use cases::call::{POSITION, RECORD};
use cases::hex::shown;
use cases::pieces::every_text;
use cases::random::Random;
use cases::{Answer, Case, Change, Function, Outcome, Routine, Told};
use telling::bytes::{past, START};

use crate::hold::Held;
use crate::limits::{standing, top};
use crate::sources::fragment;

const STARTS: [&[u8]; 3] = [b"//", b"#", b"/*"];

/// Bytes at which a comment decides something, and one at which it does not.
const BYTES: &[u8] = b"/*#?>[\n\ra";

/// So many random texts for each byte of the longest text that is tried with all others.
const RANDOM: usize = 2_000;

const SCRIPTING: u32 = 1;
const COMMENT: u32 = 21;

/// How often the Rust's comment was the library's, and how often each difference was met.
#[derive(Default)]
struct Met {
    same: u64,
    break_taken: u64,
    closed_by_its_start: u64,
    open: u64,
    attribute: u64,
}

/// Every text of up to `most` bytes after each start, and random ones.
pub fn beside_the_rust(held: &mut Held, most: usize, random: &mut Random) -> Result<(), String> {
    let mut met = Met::default();
    for start in STARTS {
        every_text(BYTES, most, |text| hold(held, &[start, text].concat(), &mut met))?;
        for _ in 0..most * RANDOM {
            hold(held, &[start, &fragment(random)].concat(), &mut met)?;
        }
    }
    match [met.same, met.break_taken, met.closed_by_its_start, met.open, met.attribute].contains(&0) {
        true => Err("  a way that a comment can take was never met".to_string()),
        false => Ok(()),
    }
}

/// A step on the text, held to what is told of it, and then to the Rust.
fn hold(held: &mut Held, text: &[u8], met: &mut Met) -> Result<(), String> {
    let mut call = standing(Function::Step, text, 0, 1, top(SCRIPTING, 0));
    call.list = RECORD;
    call.pool = text.len();
    call.end = 1;
    let told = held.hold(&call)?;
    let case = Case { routine: Routine::Scripting, source: text.to_vec(), ..Case::default() };
    let mut answer = Answer::default();
    oracle::run(&case, &mut answer);
    if is_as_the_rust(text, &told, &answer, met) {
        return Ok(());
    }
    Err(format!("  text {}\n  told and given {:?}\n  the Rust {:?}", shown(text), told, answer))
}

fn is_as_the_rust(text: &[u8], told: &Told, answer: &Answer, met: &mut Met) -> bool {
    let (cursor, value) = match (&answer.outcome, &answer.tokens[..]) {
        (Outcome::Accepted { cursor, change: Change::Keep }, [token])
            if (token.kind, token.span) == (COMMENT, START) =>
        {
            (*cursor, &token.value)
        }
        _ => {
            met.attribute += 1;
            return text.starts_with(b"#[") && passes_one_byte(told);
        }
    };
    let has_break = !value.starts_with(b"/*") && text.get(value.len()) == Some(&b'\n');
    if !text.starts_with(value) || cursor != past(START, &text[..value.len() + usize::from(has_break)]) {
        return false;
    }
    met.break_taken += u64::from(has_break);
    if value == b"/*/" {
        met.closed_by_its_start += 1;
        return text[3..].windows(2).any(|pair| pair == b"*/") == matches!(told, Told::Done { .. });
    }
    if value.starts_with(b"/*") && !value.ends_with(b"*/") {
        met.open += 1;
        return *told == Told::Refused { number: 1, span: past(START, text) };
    }
    met.same += 1;
    is_comment(told, value)
}

fn passes_one_byte(told: &Told) -> bool {
    told.written()
        .map_or(false, |(session, records, values)| session[POSITION] == 1 && records.is_empty() && values.is_empty())
}

/// One token with these bytes, after which the step ends.
fn is_comment(told: &Told, value: &[u8]) -> bool {
    let len = value.len() as u32;
    told.written().map_or(false, |(session, records, values)| {
        session[POSITION] == len && records == [[COMMENT, 0, 1, 1, 0, 0, len, len]] && values == value
    })
}
