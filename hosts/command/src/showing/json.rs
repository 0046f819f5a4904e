//! A sheet as JSON, for programs.
//!
//! A sheet is one object: `path`, `verdict` (`ok`, `warned` or `refused`), `bytes` (how many were read), and the lists
//! `blocks`, `heredocs`, `remarks`, `notes`, `warnings` and `refusals`, which are empty where there are none. What
//! stands at a place has it as `line`, `column` (both from 1, in bytes) and `position` (bytes before it). `guess` says
//! whether it was read where the reading is a guess.
//!
//! Bytes of the script (a label, a row, a remark, a token's value) are fields, either of what they belong to or of an
//! object of their own: `text` is always there; where the bytes are no UTF-8 it has U+FFFD in place of those that are
//! none, and `hex` beside it has all the bytes, two hex digits each. Where there is no `hex`, `text` is the bytes. A
//! row is so `{"text":"o  o"}`, or `{"text":"o\ufffd","hex":"6fff"}`.
//!
//! Controls and characters that are not seen are escaped, so that a terminal shows what is there.

use crate::reading::fault::Fault;
use crate::reading::heredoc::Heredoc;
use crate::reading::octal::{Overflow, OCTAL_OVERFLOW};
use crate::reading::remark::Remark;
use crate::reading::sheet::{Block, Indentation, Sheet, Verdict};
use crate::reading::warning::Warning;
use crate::showing::letters::is_hidden;
use puretakoi::Span;

/// A name and its value, which is JSON.
pub type Field = (&'static str, String);

/// A sheet as an object, without a break behind it.
pub fn sheet(path: &str, sheet: &Sheet) -> String {
    object(&[
        ("path", string(path)),
        ("verdict", string(verdict_name(sheet.verdict()))),
        ("bytes", sheet.end.to_string()),
        ("blocks", array(sheet.blocks.iter().map(block))),
        ("heredocs", array(sheet.heredocs.iter().map(heredoc))),
        ("remarks", array(sheet.remarks.iter().map(remark))),
        ("notes", array(sheet.notes.iter().map(note))),
        ("warnings", array(sheet.warnings.iter().map(warning))),
        ("refusals", array(sheet.faults.iter().map(refusal))),
    ])
}

/// A string, with its quotes.
pub fn string(text: &str) -> String {
    let mut out = String::with_capacity(text.len() + 2);
    out.push('"');
    for letter in text.chars() {
        match letter {
            '"' => out.push_str("\\\""),
            '\\' => out.push_str("\\\\"),
            '\n' => out.push_str("\\n"),
            '\t' => out.push_str("\\t"),
            letter if is_hidden(letter) => out.push_str(&escape(letter)),
            letter => out.push(letter),
        }
    }
    out.push('"');
    out
}

/// Bytes as an object.
pub fn bytes(bytes: &[u8]) -> String {
    object(&byte_fields(bytes))
}

/// Bytes as fields of an object: `text`, and `hex` where they are no UTF-8.
pub fn byte_fields(bytes: &[u8]) -> Vec<Field> {
    let hex = || bytes.iter().map(|byte| format!("{:02x}", byte)).collect::<String>();
    match std::str::from_utf8(bytes) {
        Ok(text) => vec![("text", string(text))],
        Err(_) => vec![("text", string(&String::from_utf8_lossy(bytes))), ("hex", string(&hex()))],
    }
}

/// A place as fields of an object.
pub fn place_fields(span: Span) -> Vec<Field> {
    vec![("line", span.line.to_string()), ("column", span.column.to_string()), ("position", span.position.to_string())]
}

/// An object of some fields.
pub fn object(fields: &[Field]) -> String {
    let fields: Vec<String> = fields.iter().map(|(name, value)| format!("{}:{}", string(name), value)).collect();
    format!("{{{}}}", fields.join(","))
}

/// A list of values, which are JSON.
pub fn array(values: impl Iterator<Item = String>) -> String {
    format!("[{}]", values.collect::<Vec<_>>().join(","))
}

/// The word of a verdict.
fn verdict_name(verdict: Verdict) -> &'static str {
    match verdict {
        Verdict::Ok => "ok",
        Verdict::Warned => "warned",
        Verdict::Refused => "refused",
    }
}

/// A block.
fn block(block: &Block) -> String {
    let (kind, amount) = match block.indentation {
        Indentation::None => ("none", 0),
        Indentation::Spaces(amount) => ("spaces", amount),
        Indentation::Tabs(amount) => ("tabs", amount),
    };
    let mut fields = place_fields(block.span);
    fields.extend([
        ("label", bytes(&block.label)),
        ("indentation", object(&[("kind", string(kind)), ("amount", amount.to_string())])),
        ("guess", block.is_guess.to_string()),
        ("rows", array(block.rows.iter().map(|row| bytes(row)))),
    ]);
    object(&fields)
}

/// A heredoc.
fn heredoc(heredoc: &Heredoc) -> String {
    let mut fields = place_fields(heredoc.span);
    fields.extend([
        ("label", bytes(&heredoc.label)),
        ("first", heredoc.span.line.to_string()),
        ("last", heredoc.last.to_string()),
        ("guess", heredoc.is_guess.to_string()),
    ]);
    object(&fields)
}

/// A remark.
fn remark(remark: &Remark) -> String {
    let mut fields = place_fields(remark.span);
    fields.extend(byte_fields(&remark.text));
    fields.push(("guess", remark.is_guess.to_string()));
    object(&fields)
}

/// A note on an octal escape over 377: its bytes as they stand, and the byte that it is.
fn note(note: &Overflow) -> String {
    let mut fields = vec![("kind", string(OCTAL_OVERFLOW))];
    fields.extend(place_fields(note.span));
    fields.extend([("escape", string(&note.escape)), ("byte", note.byte.to_string())]);
    fields.extend([("told", string(&note.sentence())), ("guess", note.is_guess.to_string())]);
    object(&fields)
}

/// A warning.
pub fn warning(warning: &Warning) -> String {
    let mut fields = vec![("kind", string(warning.kind.name()))];
    fields.extend(place_fields(warning.span));
    fields.extend([("told", string(&warning.told)), ("advice", string(&warning.whole_advice()))]);
    object(&fields)
}

/// A refusal; `look` is the place to look at first.
fn refusal(fault: &Fault) -> String {
    let refusal = fault.refusal;
    let mut fields = vec![("number", refusal.number.to_string()), ("name", string(refusal.name()))];
    fields.extend(place_fields(refusal.span));
    fields.extend([
        ("look", object(&place_fields(fault.place))),
        ("meaning", string(refusal.meaning())),
        ("advice", string(refusal.advice())),
        ("detail", fault.detail.as_ref().map_or("null".to_string(), |detail| string(detail))),
        ("guess", fault.is_guess.to_string()),
    ]);
    object(&fields)
}

/// A character by its UTF-16 numbers.
fn escape(letter: char) -> String {
    letter.encode_utf16(&mut [0; 2]).iter().map(|number| format!("\\u{:04x}", number)).collect()
}
