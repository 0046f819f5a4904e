//! Records: the tokens of a list.

use std::ops::Range;

use crate::frame::part;
use crate::numbers::layout::*;
use crate::numbers::{kinds, Kind};
use crate::refusal::Span;
use crate::stream::Token;

/// A token of the list; its value is a part of the pool.
#[derive(Clone, Copy, Debug, PartialEq, Eq, Hash)]
pub struct Record {
    /// The number of its kind, one of `kinds`.
    pub kind: u32,
    /// The indentation of an end of a text block, else 0.
    pub detail: u32,
    /// Where it stands.
    pub span: Span,
    /// Its value's first byte in the pool.
    pub start: u32,
    /// How many bytes its value has.
    pub len: u32,
    /// Where the step or reading ended that wrote it: the cursor's position then. All tokens of a step bear one end,
    /// so that of a string part is its step's and not the part's own. None where the end is not stated, which is a 0
    /// in the list: files that an older writer made have 0 in its place, and no step that writes a value with bytes
    /// ends at 0. The token of an empty script has none either.
    pub end: Option<u32>,
}

/// The records of a list, eight numbers each; a shorter rest is none.
pub fn records(list: &[u32]) -> impl Iterator<Item = Record> + '_ {
    list.chunks_exact(RECORD).map(|numbers| Record {
        kind: numbers[RECORD_KIND],
        detail: numbers[RECORD_DETAIL],
        span: Span { line: numbers[RECORD_LINE], column: numbers[RECORD_COLUMN], position: numbers[RECORD_POSITION] },
        start: numbers[RECORD_START],
        len: numbers[RECORD_LENGTH],
        end: stated(numbers[RECORD_END]),
    })
}

impl Record {
    /// Its kind, where the number is one's.
    pub fn kind(&self) -> Option<Kind> {
        Kind::of(self.kind)
    }

    /// Its kind in words.
    pub fn kind_name(&self) -> &'static str {
        kind_name(self.kind)
    }

    /// Its value, where that lies within the pool.
    pub fn value<'a>(&self, pool: &'a [u8]) -> Option<&'a [u8]> {
        part(pool, self.start, self.len)
    }

    /// Where in its script a literal or a comment (kinds 17 to 21) stands as it is written, with both quotes: the
    /// bytes from its position up to its end. None for other kinds, and where the end is not stated or these bytes are
    /// not in the script. One that `Session::read_single` or `Session::read_double` wrote begins after its opening
    /// quote.
    pub fn written(&self, script: &[u8]) -> Option<Range<usize>> {
        written(self.kind, self.span, self.end, script)
    }

    /// It with its value, which is empty where that lies not within the pool.
    pub(crate) fn token(&self, pool: &[u8]) -> Token {
        let value = self.value(pool).unwrap_or_default().to_vec();
        Token { kind: self.kind, detail: self.detail, span: self.span, end: self.end, value }
    }
}

/// An end, where its number states one.
pub(crate) fn stated(end: u32) -> Option<u32> {
    Some(end).filter(|end| *end != 0)
}

/// The bytes of a script that a literal or a comment is written with, if these are all there.
pub(crate) fn written(kind: u32, span: Span, end: Option<u32>, script: &[u8]) -> Option<Range<usize>> {
    let bytes = span.position as usize..end? as usize;
    let is_whole = (kinds::LITERAL_SINGLE_QUOTED_STRING..=kinds::COMMENT).contains(&kind);
    Some(bytes.clone()).filter(|_| is_whole && script.get(bytes).is_some())
}

/// A kind's number in words.
pub(crate) fn kind_name(kind: u32) -> &'static str {
    Kind::of(kind).map_or("no kind", Kind::name)
}
