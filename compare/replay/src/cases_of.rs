//! Cases of the Rust, answered by the proved library: the identifier at a place, and the cursor moved on.

use cases::call::{COLUMN, DEPTH, LINE, POSITION, SESSION, SLOTS};
use cases::{Answer, Call, Case, Change, Function, Outcome, Routine, Span, Token};

/// Document 01's kind number of an identifier.
const IDENTIFIER: u32 = 14;

/// The number of the frame Scripting.
const SCRIPTING: u32 = 1;

const START: Span = Span { line: 1, column: 1, position: 0 };

pub fn answer_to(case: &Case) -> Answer {
    match case.routine {
        Routine::PeekIdentifier => peeked(case),
        Routine::Skip => skipped(case),
        other => fault(&format!("the proved library has no `{}` by itself", other.name())),
    }
}

fn peeked(case: &Case) -> Answer {
    let cursor = cursor_at(case);
    let length = host::peek_identifier(&case.source, case.position);
    if length == 0 {
        return accepted(cursor, Vec::new());
    }
    let end = case.position.saturating_add(length);
    match case.source.get(case.position..end) {
        Some(part) => accepted(cursor, vec![identifier(cursor, part)]),
        None => fault(&format!("an identifier of {} bytes goes past the end", length)),
    }
}

/// The cursor past the bytes, and the same by a session's skip.
fn skipped(case: &Case) -> Answer {
    let end = case.position.saturating_add(case.count);
    let part = match case.source.get(case.position..end) {
        Some(part) => part,
        None => return fault("the case skips past the end"),
    };
    match (past(part, cursor_at(case)), session_past(case)) {
        (Ok(cursor), Ok(skipped)) if cursor == skipped => accepted(cursor, Vec::new()),
        (past, skipped) => fault(&format!("past gives {:?}, skip gives {:?}", past, skipped)),
    }
}

/// Where a session at the case's position stands after a skip, or the refusal.
fn session_past(case: &Case) -> Result<Span, String> {
    let cursor = cursor_at(case);
    let mut session = vec![0; SESSION];
    session[POSITION] = cursor.position as u32;
    session[LINE] = cursor.line as u32;
    session[COLUMN] = cursor.column as u32;
    session[DEPTH] = 1;
    session[SLOTS] = SCRIPTING;
    let given = host::make(&Call {
        function: Function::Skip,
        arguments: vec![case.count],
        end: 0,
        session,
        list: 0,
        pool: 0,
        answer: 5,
        source: case.source.clone(),
    })?;
    let number = |place: usize| given.session[place] as usize;
    match given.number {
        0 => Ok(Span { line: number(LINE), column: number(COLUMN), position: number(POSITION) }),
        refusal => Err(format!("refusal {}", refusal)),
    }
}

/// The span past all bytes of a part, or the refusal.
fn past(part: &[u8], span: Span) -> Result<Span, String> {
    let mut numbers = [span.line as u32, span.column as u32, span.position as u32];
    match host::past(part, &mut numbers) {
        0 => Ok(Span { line: numbers[0] as usize, column: numbers[1] as usize, position: numbers[2] as usize }),
        refusal => Err(format!("refusal {}", refusal)),
    }
}

/// The cursor at the case's position; past the end, line and column stay the end's, as in the Rust.
fn cursor_at(case: &Case) -> Span {
    let inside = case.position.min(case.source.len());
    let cursor = past(&case.source[..inside], START).unwrap_or(START);
    Span { position: cursor.position + (case.position - inside), ..cursor }
}

fn identifier(span: Span, part: &[u8]) -> Token {
    Token { kind: IDENTIFIER, detail: 0, span, value: part.to_vec() }
}

fn accepted(cursor: Span, tokens: Vec<Token>) -> Answer {
    Answer { outcome: Outcome::Accepted { cursor, change: Change::Keep }, tokens }
}

pub fn fault(text: &str) -> Answer {
    Answer { outcome: Outcome::Fault(text.to_string()), tokens: Vec::new() }
}
