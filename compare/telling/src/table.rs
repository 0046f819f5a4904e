//! Document 01's table for Scripting with document 02's comments, and VarOffset: what is done with the text at the cursor.

use cases::{Change, Frame, Routine};

use crate::bytes::{identifier_run, is_start};
use crate::session::MOST_LABEL;

/// What is done; places are counted from the cursor.
#[derive(Clone, Copy, Debug, PartialEq, Eq)]
pub enum Row {
    /// Nothing is left, and nothing is asked for.
    Finished,
    /// The text ends where something must be: refusal 1 at its end.
    Open,
    /// So many bytes are a comment.
    Comment { count: usize },
    /// Bytes are passed and the stack changes.
    Pass { count: usize, change: Change, label: Label },
    /// A routine of the Rust runs after the passed bytes.
    Read { passed: usize, routine: Routine },
}

/// Where a text block's label starts and how many bytes it has; 0 and 0 for none.
pub type Label = (usize, usize);

pub const NO_LABEL: Label = (0, 0);

/// The row for a text at Scripting.
pub fn scripting(text: &[u8], depth: usize) -> Row {
    let byte = match text.first() {
        Some(byte) => *byte,
        None => return Row::Finished,
    };
    match byte {
        b'\'' => Row::Read { passed: 1, routine: Routine::Single },
        b'"' => Row::Read { passed: 1, routine: Routine::Double },
        b'`' => pass(1, Change::Swap(Frame::ShellExec)),
        b'0'..=b'9' => Row::Read { passed: 0, routine: Routine::Number },
        b'.' if text.len() > 1 && text[1].is_ascii_digit() => Row::Read { passed: 0, routine: Routine::Number },
        _ if is_start(byte) => pass(identifier_run(text), Change::Keep),
        b'{' => pass(1, Change::Enter(Frame::Scripting)),
        b'}' if depth > 1 => pass(1, Change::Leave),
        _ if text.starts_with(b"?>") => pass(2, Change::Swap(Frame::Initial)),
        b'/' | b'#' => comment(text).unwrap_or_else(|| pass(1, Change::Keep)),
        _ => opening(text).unwrap_or_else(|| pass(1, Change::Keep)),
    }
}

/// The row for a text at VarOffset.
pub fn var_offset(text: &[u8]) -> Row {
    match text.first() {
        None => Row::Open,
        Some(b']') => pass(1, Change::Leave),
        Some(_) => pass(1, Change::Keep),
    }
}

fn pass(count: usize, change: Change) -> Row {
    Row::Pass { count, change, label: NO_LABEL }
}

/// The row for a text that begins with a comment.
fn comment(text: &[u8]) -> Option<Row> {
    let place = |pair: &[u8; 2], text: &[u8]| text.windows(2).position(|it| it == pair);
    if let Some(inside) = text.strip_prefix(b"/*") {
        let end = place(b"*/", inside);
        return Some(end.map_or(Row::Open, |end| Row::Comment { count: 2 + end + 2 }));
    }
    if !text.starts_with(b"//") && (text.starts_with(b"/") || text.starts_with(b"#[")) {
        return None;
    }
    let line = text.iter().position(|byte| *byte == b'\n').unwrap_or(text.len());
    let tag = place(b"?>", text).unwrap_or(text.len());
    Some(Row::Comment { count: line.min(tag) })
}

/// The row for a text that opens a text block.
fn opening(text: &[u8]) -> Option<Row> {
    let behind = text.strip_prefix(b"<<<")?;
    let (frame, name) = match behind.strip_prefix(b"'") {
        Some(name) => (Frame::Nowdoc, name),
        None => (Frame::Heredoc, behind),
    };
    let len = identifier_run(name);
    if len == 0 || len > MOST_LABEL || !is_start(name[0]) {
        return None;
    }
    let mut rest = &name[len..];
    if frame == Frame::Nowdoc {
        rest = rest.strip_prefix(b"'")?;
    }
    let rest = rest.strip_prefix(b"\n").or_else(|| rest.strip_prefix(b"\r\n"))?;
    let label = (text.len() - name.len(), len);
    Some(Row::Pass { count: text.len() - rest.len(), change: Change::Swap(frame), label })
}
