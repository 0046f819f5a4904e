//! A token as it is printed: for a person, as numbers, as JSON.

use puretakoi::{Record, Span, Token};

use crate::reading::fault::counted;
use crate::showing::json::{self, Field};

/// A token for a person: where it stands and ends, what it is, and its value.
pub fn line(token: &Token) -> String {
    told(&with_end(token.span, token.end), token.kind_name(), token.detail, &value_text(&token.value))
}

/// A token for a person without its end.
pub fn line_without_end(token: &Token) -> String {
    told(&token.span.to_string(), token.kind_name(), token.detail, &value_text(&token.value))
}

/// A token for a person in one line, without its end: of a value of several lines how long it is.
pub fn short_line(token: &Token) -> String {
    let value = match value_lines(&token.value).len() {
        0 | 1 => value_text(&token.value),
        _ => length_text(token.value.len()),
    };
    told(&token.span.to_string(), token.kind_name(), token.detail, &value)
}

/// A record for a person, with its end; where its value is not there, how long it is.
pub fn record_line(record: &Record, pool: Option<&[u8]>) -> String {
    let length = length_text(record.len as usize);
    let value = match pool.map(|pool| record.value(pool)) {
        Some(Some(value)) => value_text(value),
        Some(None) => format!("{}, not in the pool", length),
        None => length,
    };
    told(&with_end(record.span, record.end), record.kind_name(), record.detail, &value)
}

/// A token as the program rows prints it: an end that is not stated is 0.
pub fn numbers(token: &Token) -> String {
    let Token { kind, detail, span, end, value } = token;
    let (length, end) = (value.len(), end.unwrap_or(0));
    format!("{} {} {} {} {} {} {}", kind, span.line, span.column, span.position, detail, length, end)
}

/// A token as an object.
pub fn object(token: &Token) -> String {
    json::object(&fields(token))
}

/// A token as fields of an object.
pub fn fields(token: &Token) -> Vec<Field> {
    let kind = vec![("kind", token.kind.to_string()), ("name", json::string(token.kind_name()))];
    let end = token.end.map_or_else(|| "null".to_string(), |end| end.to_string());
    let value = vec![("end", end), ("detail", token.detail.to_string()), ("value", json::bytes(&token.value))];
    [kind, json::place_fields(token.span), value].concat()
}

/// A place with its byte, and the byte up to which its token's step goes.
fn with_end(span: Span, end: Option<u32>) -> String {
    match end {
        Some(end) => format!("{} {}..{}", span, span.position, end),
        None => format!("{} {}.. (end not stated)", span, span.position),
    }
}

fn told(place: &str, kind: &str, detail: u32, value: &str) -> String {
    let detail = if detail == 0 { String::new() } else { format!(" ({})", detail) };
    format!("{} {}{}:{}", place, kind, detail, value)
}

/// A value behind the colon, or its lines below.
fn value_text(value: &[u8]) -> String {
    let lines = value_lines(value);
    if lines.len() < 2 {
        return format!(" {}", quoted(value));
    }
    lines.into_iter().map(|line| format!("\n    {}", quoted(line))).collect()
}

/// The lines of a value, each with its break.
fn value_lines(value: &[u8]) -> Vec<&[u8]> {
    value.split_inclusive(|byte| *byte == b'\n').collect()
}

/// How long a value is, after the colon.
fn length_text(length: usize) -> String {
    format!(" {}", counted(length, "byte"))
}

/// A value in quotes: characters as they are, and a backslash before what is none, or would not be seen.
fn quoted(value: &[u8]) -> String {
    let mut shown = String::from("\"");
    let mut rest = value;
    while !rest.is_empty() {
        let whole = match std::str::from_utf8(rest) {
            Ok(text) => text.len(),
            Err(wrong) => wrong.valid_up_to(),
        };
        let (text, behind) = rest.split_at(whole);
        String::from_utf8_lossy(text).chars().for_each(|sign| show(sign, &mut shown));
        if let Some((byte, after)) = behind.split_first() {
            shown.push_str(&format!("\\x{:02x}", byte));
            rest = after;
        } else {
            rest = behind;
        }
    }
    shown.push('"');
    shown
}

fn show(sign: char, shown: &mut String) {
    match sign {
        '\n' => shown.push_str("\\n"),
        '\r' => shown.push_str("\\r"),
        '\t' => shown.push_str("\\t"),
        '"' | '\\' => shown.extend(['\\', sign]),
        _ if sign.is_control() => shown.push_str(&format!("\\u{{{:x}}}", u32::from(sign))),
        _ => shown.push(sign),
    }
}

#[cfg(test)]
mod tests {
    use super::quoted;

    #[test]
    fn what_is_not_seen_is_escaped() {
        assert_eq!(quoted(b"a\"\\\t\r\x00\x7f"), r#""a\"\\\t\r\u{0}\u{7f}""#);
        assert_eq!(quoted(b"\xe2\x82\xac\xe2\x82z\xff"), r#""€\xe2\x82z\xff""#);
        assert_eq!(quoted(b""), r#""""#);
    }
}
