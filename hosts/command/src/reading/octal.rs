//! Octal escapes over 377: what PHP makes of one, and where they stand in what a step read.

use std::ops::Range;

use puretakoi::{kinds, Frame, Record, Refusal, Span};

use crate::reading::fault::Mark;
use crate::reading::php::span_at;
use crate::reading::reader::Step;

/// The name of a note, for programs.
pub const OCTAL_OVERFLOW: &str = "octal-overflow";

/// How many bytes such an escape has.
const LENGTH: usize = 4;

/// An octal escape over 377 that was read as PHP reads it, a note on a sheet: it is neither a warning nor a refusal.
#[derive(Clone, Debug, PartialEq, Eq)]
pub struct Overflow {
    /// Where its backslash stands.
    pub span: Span,
    /// The line that it stands in.
    pub mark: Mark,
    /// Its bytes, as `\400`.
    pub escape: String,
    /// The byte that it is.
    pub byte: u8,
    /// Whether it was read where the reading is a guess.
    pub is_guess: bool,
    /// Whether more of them follow that are not told.
    pub is_last_told: bool,
}

impl Overflow {
    /// The escape at a position, if one over 377 stands there.
    fn new(script: &[u8], at: usize) -> Option<Overflow> {
        let (byte, span) = (byte_at(script, at)?, span_at(script, at));
        let escape = String::from_utf8_lossy(&script[at..at + LENGTH]).into_owned();
        let mark = Mark::new(script, span);
        Some(Overflow { span, mark, escape, byte, is_guess: false, is_last_told: false })
    }

    /// What is there and what to do.
    pub fn sentence(&self) -> String {
        let Overflow { escape, byte, .. } = self;
        let more = if self.is_last_told { " More such escapes follow, which are not told." } else { "" };
        format!(
            "{} is over 377 and is read as byte {}, as PHP does. Write \\{:03o} if it is meant.{}",
            escape, byte, byte, more
        )
    }
}

/// The byte that PHP makes of the octal escape over 377 at a position, if one stands there: its low eight bits.
fn byte_at(script: &[u8], at: usize) -> Option<u8> {
    match script.get(at..)? {
        [b'\\', first @ b'4'..=b'7', second @ b'0'..=b'7', third @ b'0'..=b'7', ..] => {
            Some(((first & 3) << 6) | ((second & 7) << 3) | (third & 7))
        }
        _ => None,
    }
}

/// Whether such an escape may stand in a line.
pub fn may_overflow(line: &[u8]) -> bool {
    (0..line.len()).any(|at| byte_at(line, at).is_some())
}

/// The first such escapes of a text, at most so many. A backslash that an escape ends in begins none.
pub fn overflows(script: &[u8], text: Range<usize>, most: usize) -> Vec<Overflow> {
    let (mut found, mut at) = (Vec::new(), text.start);
    while at < text.end && found.len() < most {
        let escape = Overflow::new(script, at);
        at += match (&escape, script.get(at)) {
            (Some(_), _) => LENGTH,
            (None, Some(b'\\')) => 2,
            (None, _) => 1,
        };
        found.extend(escape);
    }
    found
}

/// The text with escapes that a step read, with what ended it: of a double-quoted string or a heredoc.
pub fn text(step: &Step) -> Option<Range<usize>> {
    let is_part = |record: &&Record| [kinds::STRING_PART, kinds::LITERAL_DOUBLE_QUOTED_STRING].contains(&record.kind);
    let start = match step.before.top()? {
        Frame::Scripting => step.records.iter().find(is_part)?.span.position,
        Frame::DoubleQuote | Frame::Heredoc(_) => step.before.position(),
        _ => return None,
    };
    Some(start as usize..step.after.position() as usize)
}

/// What the manual's octals make of the escape that is refused, in a sentence; none for another refusal.
pub fn by_the_manual(script: &[u8], refusal: Refusal) -> Option<String> {
    let byte = refusal.octal_byte(script)?;
    Some(format!("With --octal manual \\{:o} is byte {}.", 0o400 + u32::from(byte), byte))
}
