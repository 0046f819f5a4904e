//! What PHP makes of bytes: where it opens and closes text blocks, which bytes a backslash protects, where a line ends.

use std::ops::Range;

use puretakoi::limits::MOST_LABEL;
use puretakoi::Span;

use crate::reading::octal::may_overflow;

/// The name behind which PHP reads nothing.
const HALT: &[u8] = b"__halt_compiler";

/// Where a text block closes: its label's first byte, and the byte behind the label.
#[derive(Clone, Copy, Debug, PartialEq, Eq)]
pub struct Closer {
    /// The label's first byte.
    pub label: usize,
    /// The byte behind the label.
    pub end: usize,
}

/// What an opening has that the library does not know.
#[derive(Clone, Copy, Debug, PartialEq, Eq)]
pub enum Form {
    /// Blanks before the label.
    BlanksBefore,
    /// Blanks behind the label; PHP does not know that either.
    BlanksBehind,
    /// Double quotes around the label.
    DoubleQuotes,
    /// A label of more than 64 bytes.
    LongLabel,
    /// A CR alone at the line's end.
    Return,
}

/// A text block that is meant by a `<<<`, and why the library does not open it.
#[derive(Clone, Debug, PartialEq, Eq)]
pub struct Meant {
    /// Whether it is a nowdoc block.
    pub is_nowdoc: bool,
    /// Where its label stands.
    pub label: Range<usize>,
    /// Where its text starts.
    pub body: usize,
    /// What the library does not know of it: one thing or more.
    pub forms: Vec<Form>,
}

/// Whether a byte is one of an identifier.
pub fn is_part_of_a_word(byte: u8) -> bool {
    byte.is_ascii_alphanumeric() || byte == b'_' || byte >= 0x80
}

/// Whether a byte is a space or a tab.
pub fn is_blank(byte: u8) -> bool {
    byte == b' ' || byte == b'\t'
}

/// The place of a position, by the library's own count.
pub fn span_at(script: &[u8], position: usize) -> Span {
    let front = script.get(..position).unwrap_or(script);
    Span::START.past(front).unwrap_or(Span::START)
}

/// How many bytes from a position on pass a test.
fn run(script: &[u8], at: usize, test: impl Fn(u8) -> bool) -> usize {
    script.get(at..).unwrap_or_default().iter().take_while(|byte| test(**byte)).count()
}

/// The break at a position: LF, CRLF or a CR alone; its length, 0 for none.
fn break_length(script: &[u8], at: usize) -> usize {
    match (script.get(at), script.get(at + 1)) {
        (Some(b'\r'), Some(b'\n')) => 2,
        (Some(b'\r' | b'\n'), _) => 1,
        _ => 0,
    }
}

/// Whether a CR without an LF stands at a position.
pub fn is_lone_return(script: &[u8], at: usize) -> bool {
    script.get(at) == Some(&b'\r') && script.get(at + 1) != Some(&b'\n')
}

/// The first CR without an LF of a range.
pub fn lone_return(script: &[u8], range: Range<usize>) -> Option<usize> {
    range.into_iter().find(|at| is_lone_return(script, *at))
}

/// The label that closes a block in the line that starts at a position, if it does.
pub fn closer_in_line(script: &[u8], start: usize, label: &[u8]) -> Option<Closer> {
    let at = start + run(script, start, is_blank);
    let end = at + label.len();
    let is_there = script.get(at..end)? == label;
    let goes_on = script.get(end).map_or(false, |byte| is_part_of_a_word(*byte));
    Some(Closer { label: at, end }).filter(|_| is_there && !goes_on)
}

/// The first place where PHP closes a block behind a break in a range, be it a CR alone.
pub fn closer(script: &[u8], range: Range<usize>, label: &[u8]) -> Option<Closer> {
    let mut breaks = range.filter(|at| break_length(script, *at) > 0);
    breaks.find_map(|at| closer_in_line(script, at + break_length(script, at), label))
}

/// The first place where PHP closes a block whose text starts at a position.
pub fn block_closer(script: &[u8], body: usize, label: &[u8]) -> Option<Closer> {
    closer_in_line(script, body, label).or_else(|| closer(script, body..script.len(), label))
}

/// The start of the line behind that of a position.
pub fn next_line(script: &[u8], at: usize) -> usize {
    let rest = script.get(at..).unwrap_or_default();
    rest.iter().position(|byte| *byte == b'\n').map_or(script.len(), |length| at + length + 1)
}

/// Whether an odd number of backslashes stands right before a position.
pub fn is_escaped(script: &[u8], at: usize) -> bool {
    script[..at.min(script.len())].iter().rev().take_while(|byte| **byte == b'\\').count() % 2 == 1
}

/// The end of the name at a position if it ends PHP's reading: neither a variable's nor a property's.
pub fn halt_end(script: &[u8], at: usize) -> Option<usize> {
    let end = at + run(script, at, is_part_of_a_word);
    let front: Vec<u8> = script[..at].iter().rev().copied().skip_while(u8::is_ascii_whitespace).take(2).collect();
    let is_other = script[..at].ends_with(b"$") || front == b">-";
    Some(end).filter(|_| script[at..end].eq_ignore_ascii_case(HALT) && !is_other)
}

/// Whether a line may hold what PHP reads otherwise or a note tells of, so that it must be looked at step by step.
pub fn is_suspicious(line: &[u8]) -> bool {
    let holds = |word: &[u8]| line.windows(word.len()).any(|part| part.eq_ignore_ascii_case(word));
    let has_tag = || (0..line.len()).any(|at| line[at..].starts_with(b"<?") && odd_tag(line, at).is_some());
    line.iter().any(|byte| *byte == b'`')
        || lone_return(line, 0..line.len()).is_some()
        || holds(b"<<<")
        || holds(b"\\{$")
        || has_tag()
        || has_odd_offset(line)
        || may_overflow(line)
        || holds(HALT)
}

/// Whether PHP takes a byte in the brackets behind a variable of a string.
pub fn is_offset(byte: u8) -> bool {
    is_part_of_a_word(byte) || byte == b'-' || byte == b'$'
}

/// Whether a line may hold a string with a variable and, in the brackets behind it, what PHP refuses there.
fn has_odd_offset(line: &[u8]) -> bool {
    let is_odd = |at: usize| {
        let name = line[..at].iter().rev().take_while(|byte| is_part_of_a_word(**byte)).count();
        let is_variable = name > 0 && line[..at - name].ends_with(b"$");
        is_variable && line.get(at + 1 + run(line, at + 1, is_offset)) != Some(&b']')
    };
    line.contains(&b'"') && (0..line.len()).any(|at| line[at] == b'[' && is_odd(at))
}

/// The open tag at a position if PHP may take it for text: `<?` alone, or `<?php` without a blank or break behind it.
pub fn odd_tag(script: &[u8], at: usize) -> Option<&[u8]> {
    let rest = script.get(at..)?;
    if rest.starts_with(b"<?=") {
        return None;
    }
    match rest.get(..5) {
        Some(tag) if tag.eq_ignore_ascii_case(b"<?php") => {
            rest.get(5).filter(|byte| !b" \t\r\n".contains(byte)).map(|_| tag)
        }
        _ => rest.get(..2),
    }
}

/// The block that is meant by the `<<<` at a position, where the library opens none.
pub fn meant(script: &[u8], at: usize) -> Option<Meant> {
    let mut forms = Vec::new();
    let mut note = |found: bool, form| forms.extend(Some(form).filter(|_| found));
    let blanks = run(script, at + 3, is_blank);
    let at = at + 3 + blanks;
    let quote = script.get(at).copied().filter(|byte| b"'\"".contains(byte));
    let start = at + usize::from(quote.is_some());
    let length = run(script, start, is_part_of_a_word);
    let end = start + length;
    let is_name = length > 0 && !script[start].is_ascii_digit();
    if !is_name || (quote.is_some() && script.get(end).copied() != quote) {
        return None;
    }
    let behind = end + usize::from(quote.is_some());
    let blanks_behind = run(script, behind, is_blank);
    let line_end = behind + blanks_behind;
    let body = line_end + break_length(script, line_end);
    note(blanks > 0, Form::BlanksBefore);
    note(quote == Some(b'"'), Form::DoubleQuotes);
    note(blanks_behind > 0, Form::BlanksBehind);
    note(length > MOST_LABEL, Form::LongLabel);
    note(is_lone_return(script, line_end), Form::Return);
    let is_opening = body > line_end && !forms.is_empty();
    Some(Meant { is_nowdoc: quote == Some(b'\''), label: start..end, body, forms }).filter(|_| is_opening)
}

/// Where the quoted literal that opens at a position ends, behind its quote; none if it does not.
pub fn literal_end(script: &[u8], at: usize) -> Option<usize> {
    let quote = *script.get(at)?;
    let is_end = |place: &usize| script[*place] == quote && !is_escaped(&script[at + 1..], *place - at - 1);
    (at + 1..script.len()).find(is_end).map(|place| place + 1)
}
