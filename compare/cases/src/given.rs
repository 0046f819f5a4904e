//! What a call gives: the number that comes back and all that the lent slices hold then. As text one of
//! `refused NUMBER LINE COLUMN POSITION`, `short`, `done SESSION RECORDS VALUES`, `finished SESSION RECORDS VALUES`,
//! `stopped NUMBER LINE COLUMN POSITION SESSION RECORDS VALUES`; the last three with one word more, how many steps were done, where the
//! answer has a place for it.

use crate::call::{
    answer_pattern, as_small, list_pattern, numbers, pool_pattern, read_session, small, write_numbers, write_session,
};
use crate::call::{Call, ANSWER, BYTES, RECORD, TOKENS};
use crate::case::number;
use crate::{hex, Function, Span};

/// Everything that can be seen of a call when it is over.
#[derive(Clone, Debug, PartialEq, Eq)]
pub struct Given {
    pub number: u32,
    pub session: Vec<u32>,
    pub answer: Vec<u32>,
    pub list: Vec<u32>,
    pub pool: Vec<u8>,
}

/// What a call comes to, told; with the call it says all of what is given.
#[derive(Clone, Debug, PartialEq, Eq)]
pub enum Told {
    /// Nothing is written but the answer.
    Refused { number: u32, span: Span },
    /// A slice is too short: 10 comes back, and nothing at all is written.
    Short,
    /// The records and value bytes stand from the marks on; session is the whole slice after the call. How many steps were done is
    /// there where the answer has a place for it.
    Done { finished: bool, session: Vec<u32>, records: Vec<[u32; RECORD]>, values: Vec<u8>, steps: Option<u32> },
    /// A walk that is refused after steps that were done: the refusal, and what these steps wrote.
    Stopped {
        number: u32,
        span: Span,
        session: Vec<u32>,
        records: Vec<[u32; RECORD]>,
        values: Vec<u8>,
        steps: Option<u32>,
    },
}

/// The session's slice, records and value bytes that a call wrote.
pub type Written<'a> = (&'a [u32], &'a [[u32; RECORD]], &'a [u8]);
type Owned = (Vec<u32>, Vec<[u32; RECORD]>, Vec<u8>);

impl Given {
    /// The slices as they are before a call.
    pub fn before(call: &Call) -> Given {
        Given {
            number: 0,
            session: call.session.clone(),
            answer: (0..call.answer).map(answer_pattern).collect(),
            list: (0..call.list).map(list_pattern).collect(),
            pool: (0..call.pool).map(pool_pattern).collect(),
        }
    }

    /// The text form where one fits, else `odd NUMBER` and every place that is not as before the call, with what it holds.
    pub fn write(&self, call: &Call, out: &mut Vec<u8>) {
        match Told::of(call, self) {
            Some(told) => told.write(out),
            None => out.extend_from_slice(self.odd(call).as_bytes()),
        }
    }

    /// The session's slice, and what stands between the marks before and after the call.
    fn written(&self, call: &Call) -> Option<Owned> {
        let mark = |place: usize| Some(*self.session.get(place)? as usize);
        let list = self.list.get(call.number(TOKENS) * RECORD..mark(TOKENS)? * RECORD).unwrap_or(&[]);
        let values = self.pool.get(call.number(BYTES)..mark(BYTES)?).unwrap_or(&[]).to_vec();
        let records = list.chunks_exact(RECORD).map(|record| record.try_into().unwrap()).collect();
        Some((self.session.clone(), records, values))
    }

    fn odd(&self, call: &Call) -> String {
        let before = Given::before(call);
        let mut text = format!("odd {}", self.number);
        text += &changes(" session", &before.session, &self.session);
        text += &changes(" answer", &before.answer, &self.answer);
        text += &changes(" list", &before.list, &self.list);
        text += &changes(" pool", &before.pool, &self.pool);
        text
    }
}

/// `NAME PLACE=NUMBER,..` for each place that differs, or nothing.
pub(crate) fn changes<T: PartialEq + ToString>(name: &str, before: &[T], after: &[T]) -> String {
    let changed: Vec<String> = (0..after.len())
        .filter(|place| before[*place] != after[*place])
        .map(|place| format!("{}={}", place, after[place].to_string()))
        .collect();
    if changed.is_empty() {
        return String::new();
    }
    format!("{} {}", name, changed.join(","))
}

impl Told {
    /// All that is given by a call that comes to this.
    pub fn given(&self, call: &Call) -> Given {
        let mut given = Given::before(call);
        let has_answer = call.function.has_answer();
        let mut put_answer = |numbers: [usize; ANSWER]| {
            if has_answer {
                (0..ANSWER).for_each(|place| given.answer[place] = numbers[place] as u32);
            }
        };
        match self {
            Told::Short => given.number = 10,
            Told::Refused { number, span } | Told::Stopped { number, span, .. } => {
                put_answer([2, *number as usize, span.line, span.column, span.position]);
                given.number = *number;
            }
            Told::Done { finished, .. } => put_answer([usize::from(*finished), 0, 0, 0, 0]),
        }
        if call.tells_steps() && *self != Told::Short {
            given.answer[ANSWER] = self.steps().unwrap_or(0);
        }
        if let Some((session, records, values)) = self.written() {
            given.session = session.to_vec();
            put(&records.concat(), call.number(TOKENS) * RECORD, &mut given.list);
            put(values, call.number(BYTES), &mut given.pool);
        }
        given
    }

    /// What the call wrote beside its answer, or none where nothing is written.
    pub fn written(&self) -> Option<Written<'_>> {
        match self {
            Told::Short | Told::Refused { .. } => None,
            Told::Done { session, records, values, .. } | Told::Stopped { session, records, values, .. } => {
                Some((session, records, values))
            }
        }
    }

    /// How many steps were done, where the answer has a place for it and they are not none.
    pub fn steps(&self) -> Option<u32> {
        match self {
            Told::Short | Told::Refused { .. } => None,
            Told::Done { steps, .. } | Told::Stopped { steps, .. } => *steps,
        }
    }

    /// The number that comes back, and the span of a refusal in the answer.
    pub fn refusal(&self) -> (u32, Option<Span>) {
        match self {
            Told::Short => (10, None),
            Told::Refused { number, span } | Told::Stopped { number, span, .. } => (*number, Some(*span)),
            Told::Done { .. } => (0, None),
        }
    }

    /// What a call came to, if what is given has one of the forms.
    pub fn of(call: &Call, given: &Given) -> Option<Told> {
        let steps = given.answer.get(ANSWER).copied().filter(|_| call.tells_steps());
        let told = match given.answer.first() {
            _ if given.number == 10 && *given == Told::Short.given(call) => Told::Short,
            None if given.number != 0 => Told::Refused { number: given.number, span: nowhere() },
            Some(2) if given.answer.len() >= ANSWER => {
                let part = |place: usize| given.answer[place] as usize;
                let (number, span) = (given.number, Span { line: part(2), column: part(3), position: part(4) });
                if given.session == call.session {
                    Told::Refused { number, span }
                } else {
                    let (session, records, values) = given.written(call)?;
                    Told::Stopped { number, span, session, records, values, steps }
                }
            }
            way => {
                let (session, records, values) = given.written(call)?;
                Told::Done { finished: way == Some(&1), session, records, values, steps }
            }
        };
        (told.fits(call) && told.given(call) == *given).then(|| told)
    }

    /// Whether there is room for it in the lent slices.
    fn fits(&self, call: &Call) -> bool {
        let has_room = call.answer >= ANSWER || !call.function.has_answer();
        let has_form = match self {
            Told::Short => return true,
            Told::Stopped { .. } => call.function == Function::Walk,
            Told::Refused { .. } | Told::Done { .. } => true,
        };
        let holds = |(session, records, values): Written| {
            session.len() == call.session.len()
                && (records.is_empty() || call.number(TOKENS) + records.len() <= call.list / RECORD)
                && (values.is_empty() || call.number(BYTES) + values.len() <= call.pool)
        };
        let has_steps = self.written().is_none() || self.steps().is_some() == call.tells_steps();
        has_room && has_form && has_steps && self.written().map_or(true, holds)
    }

    /// What the text says of the call, or in plain words what is wrong with the text.
    pub fn read(call: &Call, text: &[u8]) -> Result<Told, String> {
        let words: Vec<&[u8]> = text.split(|byte| *byte == b' ').collect();
        let told = match (words[0], words.len()) {
            (b"short", 1) => Told::Short,
            (b"refused", 5) => {
                let (number, span) = read_refusal(&words[1..])?;
                Told::Refused { number, span }
            }
            (b"done" | b"finished", 4 | 5) => {
                let (session, records, values) = read_written(&words[1..])?;
                let steps = read_steps(words.get(4))?;
                Told::Done { finished: words[0] == b"finished", session, records, values, steps }
            }
            (b"stopped", 8 | 9) => {
                let (number, span) = read_refusal(&words[1..])?;
                let (session, records, values) = read_written(&words[5..])?;
                let steps = read_steps(words.get(8))?;
                Told::Stopped { number, span, session, records, values, steps }
            }
            _ => return Err("what is given is refused.., short, done.., finished.. or stopped..".to_string()),
        };
        if !told.fits(call) {
            return Err("what is given does not fit into the slices of the call".to_string());
        }
        Ok(told)
    }

    /// Appends the text, without a line break.
    pub fn write(&self, out: &mut Vec<u8>) {
        let word = match self {
            Told::Short => "short",
            Told::Refused { .. } => "refused",
            Told::Done { finished: false, .. } => "done",
            Told::Done { finished: true, .. } => "finished",
            Told::Stopped { .. } => "stopped",
        };
        out.extend_from_slice(word.as_bytes());
        if let (number, Some(span)) = self.refusal() {
            let text = format!(" {} {} {} {}", number, span.line, span.column, span.position);
            out.extend_from_slice(text.as_bytes());
        }
        if let Some((session, records, values)) = self.written() {
            out.push(b' ');
            write_session(session, out);
            out.push(b' ');
            write_records(records, out);
            out.push(b' ');
            hex::write_repeats(values, out);
        }
        if let Some(steps) = self.steps() {
            out.extend_from_slice(format!(" {}", steps).as_bytes());
        }
    }
}

/// `NUMBER LINE COLUMN POSITION` in the first four words.
fn read_refusal(words: &[&[u8]]) -> Result<(u32, Span), String> {
    let part = |place: usize| number("span's number", words[place]);
    Ok((small("refusal", words[0])?, Span { line: part(1)?, column: part(2)?, position: part(3)? }))
}

/// How many steps were done, in one word, if there is one.
fn read_steps(word: Option<&&[u8]>) -> Result<Option<u32>, String> {
    word.map(|word| small("number of steps", word)).transpose()
}

/// `SESSION RECORDS VALUES` in three words.
fn read_written(words: &[&[u8]]) -> Result<Owned, String> {
    let mut values = Vec::new();
    hex::read_repeats(words[2], &mut values).map_err(|wrong| format!("the values' word {}", wrong))?;
    Ok((read_session(words[0])?, read_records(words[1])?, values))
}

/// Puts the items at a place; for none, any place will do.
fn put<T: Copy>(items: &[T], place: usize, into: &mut [T]) {
    if !items.is_empty() {
        into[place..place + items.len()].copy_from_slice(items);
    }
}

/// The span of a refusal that has no session to speak of.
pub fn nowhere() -> Span {
    Span { line: 1, column: 1, position: 0 }
}

/// Records of eight numbers with `/` between them; `-` stands for none.
fn read_records(word: &[u8]) -> Result<Vec<[u32; RECORD]>, String> {
    if word == b"-" {
        return Ok(Vec::new());
    }
    word.split(|byte| *byte == b'/').map(read_record).collect()
}

fn read_record(word: &[u8]) -> Result<[u32; RECORD], String> {
    let parts = numbers("record's number", word)?;
    let parts = parts.iter().map(|n| as_small("record's number", *n)).collect::<Result<Vec<u32>, String>>()?;
    parts.try_into().map_err(|_| "a record has eight numbers".to_string())
}

fn write_records(records: &[[u32; RECORD]], out: &mut Vec<u8>) {
    if records.is_empty() {
        out.push(b'-');
    }
    for (index, record) in records.iter().enumerate() {
        if index > 0 {
            out.push(b'/');
        }
        write_numbers(record, out);
    }
}
