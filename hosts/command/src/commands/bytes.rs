//! `bytes`: what each byte counts as, for transcribers.

use std::ffi::OsStr;
use std::os::unix::ffi::OsStrExt;

use crate::commands::arguments::Call;
use crate::commands::output::{written, ALL_GOOD};
use crate::commands::Verb;
use crate::files::name;
use crate::showing::bytes::{line, page};

/// The verb.
pub const VERB: Verb = Verb {
    name: "bytes",
    groups: &[],
    operands: "[TEXT|0xNN]..",
    about: "tells which bytes count as letters, digits, blanks or identifier bytes",
    more: "\
Without TEXT it prints a page in Markdown with all 256 bytes, in a grid and in a list; docs/BYTES.md is that page.
With TEXT it prints the line of each byte of the text; é has two. 0xNN is a byte by its number in hex. Behind -- a TEXT
may begin with -. What a byte counts as is asked of the library, byte by byte. No script is read.",
    run,
};

/// Prints the page, or the lines that are asked for.
fn run(call: &Call) -> Result<u8, String> {
    if call.paths.is_empty() {
        return Ok(written(&page(), ALL_GOOD));
    }
    let mut lines = String::new();
    for word in &call.paths {
        let bytes = bytes(word.as_os_str()).ok_or_else(|| fault(&name(word)))?;
        lines.extend(bytes.into_iter().map(|byte| line(byte..=byte)));
    }
    Ok(written(&lines, ALL_GOOD))
}

/// The bytes that a word names: that of a number, or those of a text.
fn bytes(word: &OsStr) -> Option<Vec<u8>> {
    match word.as_bytes() {
        [] => None,
        [b'0', b'x' | b'X', digits @ ..] => number(digits).map(|byte| vec![byte]),
        text => Some(text.to_vec()),
    }
}

/// The byte of one or two hex digits.
fn number(digits: &[u8]) -> Option<u8> {
    let digits = std::str::from_utf8(digits).ok().filter(|_| digits.iter().all(u8::is_ascii_hexdigit))?;
    Some(digits).filter(|digits| digits.len() <= 2).and_then(|digits| u8::from_str_radix(digits, 16).ok())
}

/// What is said of a word that names no byte.
fn fault(word: &str) -> String {
    match word {
        "" => "an empty word names no byte: write a text, or a byte as in 0x7F".to_string(),
        word => format!("{} is no byte: write 0x00 to 0xFF, or a text that does not begin with 0x", word),
    }
}
