//! A refusal, its place, and what a person is told of it.

use std::error::Error;
use std::fmt;

use crate::foreign;
use crate::numbers::Reason;

/// A place of the script, in bytes.
#[derive(Clone, Copy, Debug, PartialEq, Eq, Hash)]
pub struct Span {
    /// The line, from 1.
    pub line: u32,
    /// The column, from 1.
    pub column: u32,
    /// Bytes from the script's start.
    pub position: u32,
}

impl Span {
    /// The script's start.
    pub const START: Span = Span { line: 1, column: 1, position: 0 };

    /// The place behind all bytes of a part that starts here.
    pub fn past(self, part: &[u8]) -> Result<Span, Refusal> {
        let mut numbers = [self.line, self.column, self.position];
        let refusal = foreign::past(part, &mut numbers);
        given(refusal, Span { line: numbers[0], column: numbers[1], position: numbers[2] })
    }
}

impl fmt::Display for Span {
    fn fmt(&self, out: &mut fmt::Formatter) -> fmt::Result {
        write!(out, "{}:{}", self.line, self.column)
    }
}

/// Why a call was refused, and where. The session and the tables are as they were.
#[derive(Clone, Copy, Debug, PartialEq, Eq, Hash)]
pub struct Refusal {
    /// The number of its reason, one of `refusals`.
    pub number: u32,
    /// Where the fault stands; for refusals of the call itself the cursor, or the script's start.
    pub span: Span,
}

impl Refusal {
    /// Its reason, where the number is one's.
    pub fn reason(&self) -> Option<Reason> {
        Reason::of(self.number)
    }

    /// Its name.
    pub fn name(&self) -> &'static str {
        self.reason().map_or("no refusal", Reason::name)
    }

    /// What it is: a sentence that begins with a small letter and has no full stop.
    pub fn meaning(&self) -> &'static str {
        self.reason().map_or("the library gives no such number", Reason::meaning)
    }

    /// What to do: a whole sentence.
    pub fn advice(&self) -> &'static str {
        self.reason().map_or("Look at where it came from.", Reason::advice)
    }

    /// Of `InvalidOctalEscape`: the byte that the escape is by the manual's octals, `Octal::Manual`, which is the low
    /// eight bits of the three digits before the span. None for another reason, and where the script has no such
    /// escape there.
    pub fn octal_byte(&self, script: &[u8]) -> Option<u8> {
        if self.reason() != Some(Reason::InvalidOctalEscape) {
            return None;
        }
        match script.get(..self.span.position as usize)? {
            [.., b'\\', first @ b'4'..=b'7', second @ b'0'..=b'7', third @ b'0'..=b'7'] => {
                Some(((first & 3) << 6) | ((second & 7) << 3) | (third & 7))
            }
            _ => None,
        }
    }
}

impl Reason {
    /// What it is: a sentence that begins with a small letter and has no full stop.
    pub fn meaning(self) -> &'static str {
        match self {
            Reason::UnexpectedEndOfFile => "something is still open where the script ends",
            Reason::InvalidUnicodeEscape => "a \\u{..} escape names no code point",
            Reason::InvalidOctalEscape => "an octal escape is over 377",
            Reason::InvalidDocIndentation => "the closing line is indented by spaces and tabs mixed",
            Reason::NoProperty => "neither an arrow nor a name stands where a property is looked for",
            Reason::Wait => "what comes next is still needed",
            Reason::ListFull => "there are more tokens than places left in the list",
            Reason::PoolFull => "there are more value bytes than bytes left in the pool",
            Reason::StackFull => "braces and interpolations are nested more than 64 deep",
            Reason::OutOfPlace => "the call does not fit where the cursor and the frames are, or what it was given",
            Reason::TooLarge => "there are more than 65,536 bytes of script or pool, or more than 65,537 tokens",
            Reason::BadSession => {
                "the session was changed by hand or belongs to another script, or a count is above the list's places"
            }
            Reason::StrayIndentation => "a row starts with less than the closing line's indentation",
        }
    }

    /// What to do: a whole sentence.
    pub fn advice(self) -> &'static str {
        match self {
            Reason::UnexpectedEndOfFile => "Close the string, the text block, the command or the comment.",
            Reason::InvalidUnicodeEscape => {
                "Write hex digits between the braces, up to 10FFFF and not from D800 to DFFF."
            }
            Reason::InvalidOctalEscape => {
                "Write at most 377, or choose octals as the manual has them: the low eight bits are then the byte."
            }
            Reason::InvalidDocIndentation => "Use spaces alone or tabs alone before the label.",
            Reason::NoProperty => "Write an arrow or a name there, or pop the frame.",
            Reason::Wait => "Lend more of the script, or announce its end.",
            Reason::ListFull => "Take the tokens out and empty the tables, or lend a longer list.",
            Reason::PoolFull => "Take the values out and empty the tables, or lend a longer pool.",
            Reason::StackFull => "Nest them less deep.",
            Reason::OutOfPlace => "Look at the session and at what was lent before calling again.",
            Reason::TooLarge => "Divide the script into smaller ones.",
            Reason::BadSession => {
                "Go on with the session of this script or a fresh one; count no more records than the list has."
            }
            Reason::StrayIndentation => "Indent the row as the closing line is, or the closing line less.",
        }
    }
}

impl fmt::Display for Refusal {
    fn fmt(&self, out: &mut fmt::Formatter) -> fmt::Result {
        write!(out, "refused {} at {}: {}", self.number, self.span, self.meaning())
    }
}

impl Error for Refusal {}

/// What a call without a session made, unless it was refused.
pub(crate) fn given<T>(number: u32, made: T) -> Result<T, Refusal> {
    match number {
        0 => Ok(made),
        number => Err(Refusal { number, span: Span::START }),
    }
}
