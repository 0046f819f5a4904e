//! What each call of the host's boundary must give, without the proved library: documents 01 and 02 told in plain Rust, layer by layer.
//! In order: slices that are too short, the gate (11, 12), 10, the outcome with tables of any size (6, 1 to 5, 13, 9), then 7 and 8.
//! A walk is told by its steps.

pub mod bytes;
pub mod classes;
pub mod find;
pub mod octals;
pub mod outcome;
pub mod session;
pub mod sheet;
pub mod table;
mod wait;

use cases::call::{ANSWER, RECORD, SESSION};
use cases::{Call, Change, Frame, Function, Span, Token, Told};

use bytes::{counted_on, past, START};
use outcome::{Outcome, Text};
use session::{frame_of, is_label, Choices, Session, MOST_BYTES, MOST_FRAMES, MOST_TOKENS};

/// Tells calls, with tables that are used again from call to call.
#[derive(Default)]
pub struct Teller {
    text: Text,
}

impl Teller {
    /// What the call comes to.
    pub fn told(&mut self, call: &Call) -> Told {
        if call.function == Function::Fresh {
            return fresh(call);
        }
        if call.session.len() < SESSION || call.answer < ANSWER {
            return Told::Short;
        }
        if is_too_large(call) {
            return refused(11, START);
        }
        let session = match Session::read(&call.session) {
            Some(session) if session.is_good(&call.source) && has_marks(call, &session) => session,
            _ => return refused(12, START),
        };
        match call.function {
            Function::Skip => skipped(call, session),
            Function::Push => pushed(call, session),
            Function::Pop => popped(call, session),
            Function::Walk => self.walked(call),
            Function::Fresh | Function::Step => self.turned(call, session),
            Function::ReadNumber | Function::ReadSingle | Function::ReadDouble => match session.top().0 {
                Frame::Scripting => self.turned(call, session),
                _ => refused(10, session.span),
            },
        }
    }

    /// At most so many steps after the gate, each on the session and the marks that the one before left, until one is not done.
    fn walked(&mut self, call: &Call) -> Told {
        let mut step = Call { function: Function::Step, arguments: Vec::new(), ..call.clone() };
        let (mut records, mut values) = (Vec::new(), Vec::new());
        for made in 0..call.arguments[0] {
            let steps = steps_told(call, made);
            match self.told(&step) {
                Told::Done { finished, session, records: new, values: more, .. } => {
                    step.session = session;
                    records.extend(new);
                    values.extend(more);
                    if finished {
                        return Told::Done { finished, session: step.session, records, values, steps };
                    }
                }
                Told::Refused { number, span } if made > 0 => {
                    return Told::Stopped { number, span, session: step.session, records, values, steps };
                }
                refused => return refused,
            }
        }
        let steps = steps_told(call, call.arguments[0]);
        Told::Done { finished: false, session: step.session, records, values, steps }
    }

    /// A step or reading of a good session.
    fn turned(&mut self, call: &Call, session: Session) -> Told {
        self.text.lend(call.function, &call.source, &session);
        let outcome = if call.end != 0 { Some(self.text.outcome()) } else { self.text.part_outcome(call.function) };
        match outcome {
            None => refused(6, session.span),
            Some(Outcome::Refused { number, span }) => refused(number, counted_on(session.span, span)),
            Some(Outcome::Done { tokens, cursor, change, label: (start, len), finished }) => {
                let size: usize = tokens.iter().map(|token| token.value.len()).sum();
                if session.tokens + tokens.len() > call.list / RECORD {
                    return refused(7, session.span);
                }
                if session.bytes + size > call.pool {
                    return refused(8, session.span);
                }
                let cursor = counted_on(session.span, cursor);
                let (records, values) = laid_out(&tokens, &session, cursor.position);
                let mut after = session;
                after.change(change, (start + after.span.position, len));
                after.span = cursor;
                after.tokens += tokens.len();
                after.bytes += size;
                let mut numbers = call.session.clone();
                after.write_step(&mut numbers, change);
                let steps = steps_told(call, usize::from(!finished));
                Told::Done { finished, session: numbers, records, values, steps }
            }
        }
    }
}

fn refused(number: u32, span: Span) -> Told {
    Told::Refused { number, span }
}

fn done(call: &Call, session: Session) -> Told {
    let session = written(call, &session);
    Told::Done { finished: false, session, records: Vec::new(), values: Vec::new(), steps: None }
}

/// How many steps or readings were done, where the answer has a place for it.
fn steps_told(call: &Call, made: usize) -> Option<u32> {
    call.tells_steps().then(|| made as u32)
}

/// The whole slice of a call's session with another session in it.
fn written(call: &Call, session: &Session) -> Vec<u32> {
    let mut numbers = call.session.clone();
    session.write(&mut numbers);
    numbers
}

fn fresh(call: &Call) -> Told {
    if call.session.len() < SESSION {
        return Told::Short;
    }
    match Choices::of(call.arguments[0]) {
        Some(choices) => done(call, Session::fresh(choices)),
        None => refused(12, START),
    }
}

/// Refusal 11; tables count where they are lent.
fn is_too_large(call: &Call) -> bool {
    let has_large_tables = call.pool > MOST_BYTES || call.list / RECORD > MOST_TOKENS;
    call.source.len() > MOST_BYTES || (call.function.has_tables() && has_large_tables)
}

/// The marks are within their tables, where these are lent.
fn has_marks(call: &Call, session: &Session) -> bool {
    !call.function.has_tables() || (session.tokens <= call.list / RECORD && session.bytes <= call.pool)
}

fn skipped(call: &Call, mut session: Session) -> Told {
    let position = session.span.position;
    let count = call.arguments[0];
    if count > call.source.len() - position {
        return refused(10, session.span);
    }
    session.span = past(session.span, &call.source[position..position + count]);
    done(call, session)
}

fn pushed(call: &Call, mut session: Session) -> Told {
    let label = (call.arguments[1], call.arguments[2]);
    let frame = match frame_of(call.arguments[0]) {
        Some(Frame::Heredoc | Frame::Nowdoc) if !is_label(&call.source, label) => None,
        frame => frame,
    };
    match frame {
        None => refused(10, session.span),
        Some(_) if session.depth == MOST_FRAMES => refused(9, session.span),
        Some(frame) => {
            session.change(Change::Enter(frame), label);
            done(call, session)
        }
    }
}

fn popped(call: &Call, mut session: Session) -> Told {
    if session.depth == 1 {
        return refused(10, session.span);
    }
    session.change(Change::Leave, table::NO_LABEL);
    done(call, session)
}

/// Tokens as records and value bytes, from the marks on; each bears the session's position after the call.
fn laid_out(tokens: &[Token], session: &Session, end: usize) -> (Vec<[u32; RECORD]>, Vec<u8>) {
    let (mut records, mut values) = (Vec::new(), Vec::new());
    for token in tokens {
        let span = counted_on(session.span, token.span);
        let start = session.bytes + values.len();
        let numbers =
            [token.kind as usize, token.detail, span.line, span.column, span.position, start, token.value.len(), end];
        records.push(numbers.map(|number| number as u32));
        values.extend_from_slice(&token.value);
    }
    (records, values)
}
