//! The sheet reading of a nowdoc block, told over its lines (document 01, "Sheet reading", with request P1).

use crate::bytes::is_identifier;

/// What a body comes to; places are counted from its start.
#[derive(Clone, Debug, PartialEq, Eq)]
pub enum Sheet {
    /// What is left of the rows, how many blanks of which kind the closing line has, and where the label ends.
    Closed {
        text: Vec<u8>,
        blank: Option<u8>,
        width: usize,
        end: usize,
    },
    Refused {
        number: u32,
        at: usize,
    },
}

/// A line: where it starts, its bytes, and its break.
struct Line<'a> {
    start: usize,
    bytes: &'a [u8],
    end: &'a [u8],
}

pub fn sheet(body: &[u8], label: &[u8]) -> Sheet {
    let lines = lines_of(body);
    let blanks_of = |line: &Line| line.bytes.iter().take_while(|byte| is_blank(**byte)).count();
    let closing = match lines.iter().position(|line| closes(&line.bytes[blanks_of(line)..], label)) {
        Some(closing) => closing,
        None => return Sheet::Refused { number: 1, at: body.len() },
    };
    let line = &lines[closing];
    let width = blanks_of(line);
    let indentation = &line.bytes[..width];
    let end = line.start + width + label.len();
    if indentation.iter().any(|blank| *blank != indentation[0]) {
        return Sheet::Refused { number: 4, at: line.start + width };
    }
    let mut text = Vec::new();
    for row in &lines[..closing] {
        let fitting = row.bytes.iter().zip(indentation).take_while(|(byte, blank)| byte == blank).count();
        if fitting < width && fitting < row.bytes.len() {
            return Sheet::Refused { number: 13, at: row.start + fitting };
        }
        text.extend_from_slice(&row.bytes[fitting..]);
        text.extend_from_slice(row.end);
    }
    let last_break = if closing > 0 { lines[closing - 1].end.len() } else { 0 };
    text.truncate(text.len() - last_break);
    Sheet::Closed { text, blank: indentation.first().copied(), width, end }
}

/// Whether a line closes the block, by what stands after its blanks: the label, and then no identifier byte.
fn closes(rest: &[u8], label: &[u8]) -> bool {
    let behind = rest.strip_prefix(label).map(<[u8]>::first);
    behind.map_or(false, |byte| !byte.map_or(false, |byte| is_identifier(*byte)))
}

fn is_blank(byte: u8) -> bool {
    byte == b' ' || byte == b'\t'
}

/// All lines; the last has no break, and may have no bytes.
fn lines_of(body: &[u8]) -> Vec<Line<'_>> {
    let mut lines = Vec::new();
    let mut start = 0;
    for piece in body.split(|byte| *byte == b'\n') {
        let is_last = start + piece.len() == body.len();
        let bytes = if is_last { piece } else { piece.strip_suffix(b"\r").unwrap_or(piece) };
        let next = start + piece.len() + usize::from(!is_last);
        lines.push(Line { start, bytes, end: &body[start + bytes.len()..next] });
        start = next;
    }
    lines
}
