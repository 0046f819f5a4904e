//! Where the step or reading ended that wrote a record (document 02, P4): in scripts that are stepped to their end, and
//! literals and comments cut out of a source and read alone.

use std::collections::BTreeMap;

use cases::call::{BYTES, CHOICES, OCTAL_MANUAL, POSITION, RECORD, RECORD_END, RECORD_LENGTH, RECORD_POSITION};
use cases::hex::shown;
use cases::pieces::every_text;
use cases::random::Random;
use cases::{Call, Function, Told};
use telling::bytes::{past, START};
use telling::octals::lowered;

use crate::forged::any_choices;
use crate::hold::Held;
use crate::limits::{standing, top};
use crate::sources::{fragment, script};
use crate::walks::{walk, Walked};

const SCRIPTING: u32 = 1;
const SINGLE: u32 = 17;
const DOUBLE: u32 = 18;
const INTEGER: u32 = 19;
const FLOAT: u32 = 20;
const COMMENT: u32 = 21;

/// One script for so many literals that are made.
const SCRIPT_OF: usize = 4;

/// A function, how its literal begins and ends; one that begins with no byte, and is no string's, is a number.
const FORMS: [(Function, &[u8], &[u8]); 10] = [
    (Function::Step, b"'", b"'"),
    (Function::Step, b"\"", b"\""),
    (Function::Step, b"", b";"),
    (Function::Step, b"//", b"\n"),
    (Function::Step, b"#", b"?>"),
    (Function::Step, b"/*", b"*/"),
    (Function::ReadSingle, b"", b"'"),
    (Function::ReadDouble, b"", b"\""),
    (Function::ReadNumber, b"", b""),
    (Function::ReadNumber, b"", b" "),
];

const NUMBERS: [&[u8]; 14] = [b"0", b"1", b"7", b"9", b"_", b".", b"e", b"E", b"+", b"-", b"0x", b"0b1", b"0o", b"1e5"];
const MOST_PIECES: usize = 6;

/// Every text of up to so many of these bytes is tried inside of each form.
const BYTES_INSIDE: &[u8] = b"a'\"\\$1_.e*/\n";
const MOST_INSIDE: usize = 3;

/// What must be read alone: by the step each kind, by each reading its own.
const READ: [(Function, u32); 9] = [
    (Function::Step, SINGLE),
    (Function::Step, DOUBLE),
    (Function::Step, INTEGER),
    (Function::Step, FLOAT),
    (Function::Step, COMMENT),
    (Function::ReadSingle, SINGLE),
    (Function::ReadDouble, DOUBLE),
    (Function::ReadNumber, INTEGER),
    (Function::ReadNumber, FLOAT),
];

/// What a function read under choices, and the values that records of it speak of.
struct Read<'a> {
    function: Function,
    choices: usize,
    source: &'a [u8],
    values: &'a [u8],
}

/// A literal or a comment: its record's kind, the source from the record's position to its end, and its value.
struct Literal<'a> {
    function: Function,
    choices: usize,
    kind: u32,
    text: &'a [u8],
    value: &'a [u8],
}

/// How often a literal of a kind was read alone, and how often the Rust's own `tokenize` read it too, by function.
#[derive(Default)]
struct Met {
    alone: BTreeMap<(usize, u32), u64>,
    by_the_rust: BTreeMap<(usize, u32), u64>,
    empty: u64,
}

/// Whether records bear an end; none with a value bears 0.
pub fn bear(records: &[u32], end: u32) -> bool {
    records.chunks_exact(RECORD).all(|record| record[RECORD_END] == end && has_end(record))
}

/// Whether the ends of what a call wrote are right: a step's or reading's is the session's position after it; those of
/// a walk never fall, and the last is not past that position.
pub fn are_right(call: &Call, told: &Told) -> bool {
    let (session, records) = match told.written() {
        Some((session, records, _)) => (session, records),
        None => return true,
    };
    match call.function {
        Function::Walk => {
            let last = records.last().map_or(0, |record| record[RECORD_END]);
            never_fall(records) && last <= session[POSITION]
        }
        _ => records.iter().all(|record| bear(record, session[POSITION])),
    }
}

/// Whether no end is below the one before it or before its record's position, and none with a value is 0.
fn never_fall(records: &[[u32; RECORD]]) -> bool {
    records.windows(2).all(|pair| pair[0][RECORD_END] <= pair[1][RECORD_END])
        && records.iter().all(|record| record[RECORD_POSITION] <= record[RECORD_END] && has_end(record))
}

/// Whether a record's end is stated where it has a value.
fn has_end(record: &[u32]) -> bool {
    record[RECORD_END] > 0 || record[RECORD_LENGTH] == 0
}

/// Literals and comments that were read somewhere, each read again alone.
pub fn literals_alone(held: &mut Held, count: usize, random: &mut Random) -> Result<(), String> {
    let mut met = Met::default();
    every_short(held, &mut met)?;
    for index in 0..count {
        if index % SCRIPT_OF == 0 {
            of_script(held, &script(random), any_choices(random), &mut met)?;
        }
        of_call(held, &any_call(random), &mut met)?;
    }
    for (function, kind) in READ {
        let key = (function as usize, kind);
        if !met.alone.contains_key(&key) || !met.by_the_rust.contains_key(&key) {
            return Err(format!("  kind {} by {} was never met", kind, function.name()));
        }
    }
    match met.empty {
        0 => Err("  a number reading where no number stands was never met".to_string()),
        _ => Ok(()),
    }
}

/// Every short text inside of each form, with a byte after it.
fn every_short(held: &mut Held, met: &mut Met) -> Result<(), String> {
    for (function, open, close) in FORMS {
        every_text(BYTES_INSIDE, MOST_INSIDE, |inside| {
            let source = [open, inside, close, b"a"].concat();
            let mut call = standing(function, &source, 0, 1, top(SCRIPTING, 0));
            call.list = RECORD;
            call.pool = source.len();
            call.end = 1;
            of_call(held, &call, met)
        })?;
    }
    Ok(())
}

/// Those of a whole script, whose ends never fall.
fn of_script(held: &mut Held, script: &[u8], choices: usize, met: &mut Met) -> Result<(), String> {
    let Walked { records, values, .. } = walk(held, script, choices)?;
    if !never_fall(&records) {
        return Err(format!("  script {}\n  its ends fall: {:?}", shown(script), records));
    }
    let read = Read { function: Function::Step, choices, source: script, values: &values };
    records.iter().try_for_each(|record| alone_if_any(held, &read, record, met))
}

/// The one of a call, if it is done.
fn of_call(held: &mut Held, call: &Call, met: &mut Met) -> Result<(), String> {
    let told = held.hold(call)?;
    if let Some((_, records, values)) = told.written() {
        let before = vec![0; call.number(BYTES)];
        let values = [&before, values].concat();
        let choices = call.number(CHOICES);
        let read = Read { function: call.function, choices, source: &call.source, values: &values };
        records.iter().try_for_each(|record| alone_if_any(held, &read, record, met))?;
    }
    Ok(())
}

/// A call at a literal of any form: it may be open, refused or have an interpolation, and more may be announced.
fn any_call(random: &mut Random) -> Call {
    let (function, open, close) = FORMS[random.below(FORMS.len())];
    let is_number = open.is_empty() && !matches!(function, Function::ReadSingle | Function::ReadDouble);
    let inside = match is_number {
        true => (0..1 + random.below(MOST_PIECES)).flat_map(|_| random.pick(&NUMBERS).to_vec()).collect(),
        false => fragment(random),
    };
    let head = fragment(random);
    let source = [&head, open, &inside, close, &fragment(random)].concat();
    let mut call = standing(function, &source, head.len(), 1 + random.below(3), top(SCRIPTING, 0));
    call.session[BYTES] = random.below(4) as u32;
    call.session[CHOICES] = any_choices(random) as u32;
    call.list = RECORD;
    call.pool = source.len() + 4;
    call.end = random.below(4).min(1) as u32;
    call
}

/// Reads a record's text alone, if it is a literal or a comment.
fn alone_if_any(held: &mut Held, read: &Read, record: &[u32; RECORD], met: &mut Met) -> Result<(), String> {
    let Read { function, choices, source, values } = *read;
    let [kind, _, _, _, position, start, length, end] = record.map(|number| number as usize);
    let kind = kind as u32;
    if !(SINGLE..=COMMENT).contains(&kind) {
        return Ok(());
    }
    let (text, value) = (&source[position..end], &values[start..start + length]);
    let literal = Literal { function, choices, kind, text, value };
    let key = (function as usize, kind);
    *met.alone.entry(key).or_insert(0) += 1;
    met.empty += u64::from(literal.text.is_empty());
    let is_read = literal.is_read_by_the_rust();
    if is_read == Some(true) {
        *met.by_the_rust.entry(key).or_insert(0) += 1;
    }
    if literal.is_read_alone(held)? && literal.is_as_written() && is_read != Some(false) {
        return Ok(());
    }
    let said = (function.name(), kind, shown(literal.text), shown(literal.value));
    Err(format!("  source {}\n  {:?} is another thing when it is read alone", shown(source), said))
}

impl Literal<'_> {
    /// Whether the same function at the start of the text alone gives the same token, and passes all of it.
    fn is_read_alone(&self, held: &mut Held) -> Result<bool, String> {
        let mut call = standing(self.function, self.text, 0, 1, top(SCRIPTING, 0));
        call.session[CHOICES] = self.choices as u32;
        call.end = 1;
        call.list = RECORD;
        call.pool = self.value.len();
        let (length, end) = (self.value.len() as u32, self.text.len() as u32);
        let told = held.hold(&call)?;
        Ok(matches!(told, Told::Done { finished: false, .. })
            && told.written().map_or(false, |(session, records, values)| {
                session[POSITION] == end && records == [[self.kind, 0, 1, 1, 0, 0, length, end]] && values == self.value
            }))
    }

    /// Whether the text has its quotes, its digits, or is the comment.
    fn is_as_written(&self) -> bool {
        match self.kind {
            SINGLE => self.is_quoted(b'\''),
            DOUBLE => self.is_quoted(b'"'),
            COMMENT => self.text == self.value,
            _ => self.is_spelled(),
        }
    }

    /// A number's value has no `_`, and a small `e` for its exponent.
    fn is_spelled(&self) -> bool {
        let is_hex = self.text.starts_with(b"0x") || self.text.starts_with(b"0X");
        let spelled = |byte: &u8| if *byte == b'E' && !is_hex { b'e' } else { *byte };
        self.text.iter().filter(|byte| **byte != b'_').map(spelled).eq(self.value.iter().copied())
    }

    /// A step's text has both quotes, a reading's the closing one.
    fn is_quoted(&self, quote: u8) -> bool {
        let inside = match self.function {
            Function::Step => self.text.strip_prefix(&[quote]),
            _ => Some(self.text),
        };
        inside.map_or(false, |text| text.ends_with(&[quote]))
    }

    /// Whether the Rust's own `tokenize` reads the same token in a script of this literal alone, under the manual's
    /// choice with octal escapes that do not overflow; none where it is another thing to the Rust: a number that begins
    /// with no digit, and a comment that is closed by its own star.
    fn is_read_by_the_rust(&self) -> Option<bool> {
        let quote: &[u8] = match (self.function, self.kind) {
            (Function::ReadSingle, _) => b"'",
            (Function::ReadDouble, _) => b"\"",
            (_, INTEGER | FLOAT) if !self.begins_as_a_number() => return None,
            _ if self.text.starts_with(b"/*/") => return None,
            _ => b"",
        };
        let is_manual = self.kind == DOUBLE && self.choices & OCTAL_MANUAL != 0;
        let text = if is_manual { lowered(self.text) } else { self.text.to_vec() };
        let script = [b"<?php ", quote, &text].concat();
        let tokens = oracle::tokens_of(&script).unwrap_or_default();
        Some(match &tokens[..] {
            [_, token] => {
                token.kind == self.kind && token.value == self.value && token.span == past(START, &script[..6])
            }
            _ => false,
        })
    }

    fn begins_as_a_number(&self) -> bool {
        let digits = self.text.strip_prefix(b".").unwrap_or(self.text);
        digits.first().map_or(false, u8::is_ascii_digit)
    }
}
