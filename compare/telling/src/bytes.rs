//! Classes of bytes, and places: the cursor of document 01.

use cases::Span;

/// Where a source begins.
pub const START: Span = Span { line: 1, column: 1, position: 0 };

pub fn is_start(byte: u8) -> bool {
    byte.is_ascii_alphabetic() || byte == b'_' || byte >= 0x80
}

pub fn is_identifier(byte: u8) -> bool {
    is_start(byte) || byte.is_ascii_digit()
}

/// How many identifier bytes stand at the start of a text.
pub fn identifier_run(text: &[u8]) -> usize {
    text.iter().take_while(|byte| is_identifier(**byte)).count()
}

/// The span after passed bytes.
pub fn past(from: Span, passed: &[u8]) -> Span {
    passed.iter().fold(from, |span, byte| match byte {
        b'\n' => Span { line: span.line + 1, column: 1, position: span.position + 1 },
        _ => Span { column: span.column + 1, position: span.position + 1, ..span },
    })
}

/// The span of a place that was counted from line 1, column 1, position 0 at the cursor.
pub fn counted_on(cursor: Span, place: Span) -> Span {
    let column = if place.line == 1 { cursor.column + place.column - 1 } else { place.column };
    Span { line: cursor.line + place.line - 1, column, position: cursor.position + place.position }
}
