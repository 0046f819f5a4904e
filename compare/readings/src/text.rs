//! The six text readings: what the proved library says of a text, as tokens, by document 01's rules.

use cases::{Answer, Case, Change, Frame, Outcome, Span, Token};

use crate::library::{self, Probed, Question};

/// What ended a text, by the numbers of crates/probe.
pub const QUOTE: u32 = 0;
pub const INTERPOLATION: u32 = 1;
const DOLLAR_LEFT_BRACE: u32 = 2;
const LEFT_BRACE: u32 = 3;
const VARIABLE: u32 = 4;
const VARIABLE_AND_OFFSET: u32 = 5;
const VARIABLE_AND_PROPERTY: u32 = 6;
const LABEL: u32 = 7;
const LABEL_BEHIND_SPACES: u32 = 8;
const LABEL_BEHIND_TABS: u32 = 9;

const WAIT: u32 = 6;
const POOL_FULL: u32 = 8;
const STRING_PART: u32 = 5;

/// What a buffer holds before a call, and how many of its bytes lie after the value.
const PATTERN: u8 = 0xa5;
const SPARE: usize = 3;

/// What a stop makes of the text before it.
pub enum Ending {
    /// The text is the only token, also an empty one.
    Literal { kind: u32, change: Change },
    /// The text is a StringPart, left out when empty, and the stop a token after it.
    Token { kind: u32, change: Change },
}

/// The proved answer of a mode, whose stops `ending` tells. A stop that the mode can't have is a fault.
pub fn answer(mode: u32, ending: fn(u32) -> Option<Ending>, case: &Case, end: bool) -> Answer {
    let question = Question { mode, source: &case.source, label: &case.label, at: case.position, end: u32::from(end) };
    let probed = library::text(question);
    let outcome_and_tokens = match probed.number {
        0 => accepted(question, &probed, ending),
        number => refused(question, &probed, number).map(|outcome| (outcome, Vec::new())),
    };
    match outcome_and_tokens {
        Ok((outcome, tokens)) => Answer { outcome, tokens },
        Err(wrong) => Answer { outcome: Outcome::Fault(wrong), tokens: Vec::new() },
    }
}

/// Stops of the modes with interpolations.
pub fn interpolation(stop: u32) -> Option<Ending> {
    let (kind, change) = match stop {
        DOLLAR_LEFT_BRACE => (6, Change::Enter(Frame::LookingForVarname)),
        LEFT_BRACE => (7, Change::Enter(Frame::Scripting)),
        VARIABLE => (10, Change::Keep),
        VARIABLE_AND_OFFSET => (10, Change::Enter(Frame::VarOffset)),
        VARIABLE_AND_PROPERTY => (10, Change::Enter(Frame::LookingForProperty)),
        _ => return None,
    };
    Some(Ending::Token { kind, change })
}

/// Stops of the blocks: the label after its indentation.
pub fn label(stop: u32) -> Option<Ending> {
    let kind = match stop {
        LABEL => 11,
        LABEL_BEHIND_SPACES => 12,
        LABEL_BEHIND_TABS => 13,
        _ => return None,
    };
    Some(Ending::Token { kind, change: Change::Swap(Frame::Scripting) })
}

/// Both tokens bear the span where the call began.
fn accepted(
    question: Question,
    probed: &Probed,
    ending: fn(u32) -> Option<Ending>,
) -> Result<(Outcome, Vec<Token>), String> {
    let value = value_of(question, probed.len)?;
    let span = span_at(question.source, question.at);
    let cursor = span_from(span, question.source.get(question.at..probed.after).ok_or("it ends past the source")?);
    let stop = question.source.get(probed.from..probed.after).ok_or("its stop is no part of the source")?;
    let mut tokens = Vec::with_capacity(2);
    let change = match ending(probed.stop).ok_or_else(|| format!("stop {} is not the mode's", probed.stop))? {
        Ending::Literal { kind, change } => {
            tokens.push(Token { kind, detail: 0, span, value });
            change
        }
        Ending::Token { kind, change } => {
            if !value.is_empty() {
                tokens.push(Token { kind: STRING_PART, detail: 0, span, value });
            }
            tokens.push(Token { kind, detail: probed.detail, span, value: stop.to_vec() });
            change
        }
    };
    Ok((Outcome::Accepted { cursor, change }, tokens))
}

/// A fault bears its own span, a wait the cursor's; the value must be refused alike.
fn refused(question: Question, probed: &Probed, number: u32) -> Result<Outcome, String> {
    let mut room = [PATTERN; SPARE];
    let again = library::value(question, &mut room);
    if again != number || room != [PATTERN; SPARE] {
        return Err(format!("the scan says {}, the value {}, and the room holds {:?}", number, again, room));
    }
    let place = match number {
        1..=4 => probed.place,
        WAIT => question.at,
        _ => return Err(format!("the library refused with {}", number)),
    };
    if place > question.source.len() {
        return Err(format!("place {} lies past the source", place));
    }
    Ok(Outcome::Refused { number, span: span_at(question.source, place) })
}

/// The value's bytes. With room to spare nothing else is written; with a byte too few it is 8 and nothing is.
fn value_of(question: Question, len: usize) -> Result<Vec<u8>, String> {
    let mut room = vec![PATTERN; len + SPARE];
    if len > 0 {
        let number = library::value(question, &mut room[..len - 1]);
        if number != POOL_FULL || room.iter().any(|byte| *byte != PATTERN) {
            return Err(format!("with a byte too few of {} the value is refused with {}", len, number));
        }
    }
    let number = library::value(question, &mut room);
    if number != 0 || room[len..] != [PATTERN; SPARE] {
        return Err(format!("the value of {} bytes is refused with {}, and behind it {:?}", len, number, &room[len..]));
    }
    room.truncate(len);
    Ok(room)
}

/// Line, column and position after the source's first bytes.
pub fn span_at(source: &[u8], position: usize) -> Span {
    span_from(Span { line: 1, column: 1, position: 0 }, &source[..position])
}

/// The span after more bytes.
fn span_from(from: Span, passed: &[u8]) -> Span {
    let breaks = passed.iter().filter(|byte| **byte == b'\n').count();
    let column = match passed.iter().rposition(|byte| *byte == b'\n') {
        Some(last) => passed.len() - last,
        None => from.column + passed.len(),
    };
    Span { line: from.line + breaks, column, position: from.position + passed.len() }
}
