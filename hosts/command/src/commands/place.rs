//! A place of a script as a person names it, and the byte that it is.

use std::ffi::OsStr;
use std::fmt;

use puretakoi::limits::MOST_BYTES;

use crate::commands::arguments::number;
use crate::reading::fault::counted;
use crate::reading::php::{next_line, span_at};

/// A place as it is named.
#[derive(Clone, Debug, PartialEq, Eq)]
pub struct Place {
    /// The word that names it: a number that is too large to hold is told as it was typed.
    word: String,
    at: At,
}

/// Where a place is.
#[derive(Clone, Copy, Debug, PartialEq, Eq)]
enum At {
    /// A line and a column, both from 1.
    LineColumn(usize, usize),
    /// A position, from 0.
    Byte(usize),
}

impl Place {
    /// The place that a word names.
    pub fn parse(word: &OsStr) -> Option<Place> {
        let at = match word.to_str()?.split_once(':') {
            Some((line, column)) => match (number(OsStr::new(line))?, number(OsStr::new(column))?) {
                (0, _) | (_, 0) => return None,
                (line, column) => At::LineColumn(line, column),
            },
            None => At::Byte(number(word)?),
        };
        Some(Place { word: word.to_str()?.to_string(), at })
    }

    /// The byte of a script that it is, or the script's end; else a sentence on why it is none. A script that is too
    /// large comes with one byte more than is taken, and its end is not known.
    pub fn byte(&self, name: &str, script: &[u8]) -> Result<usize, String> {
        let byte = match self.at {
            At::Byte(byte) => byte,
            At::LineColumn(line, column) => {
                let start = line_start(script, line).ok_or_else(|| self.past_the_end(name, script))?;
                let line_end = next_line(script, start);
                let is_broken = script[start..line_end].ends_with(b"\n");
                let byte = start.saturating_add(column - 1);
                if byte >= line_end && (is_broken || byte > line_end && script.len() <= MOST_BYTES) {
                    return Err(self.past_the_line(name, line, &script[start..line_end]));
                }
                byte
            }
        };
        let last = if script.len() > MOST_BYTES { MOST_BYTES - 1 } else { script.len() };
        Some(byte).filter(|byte| *byte <= last).ok_or_else(|| self.past_the_end(name, script))
    }

    /// What is said where it is past a script's end.
    fn past_the_end(&self, name: &str, script: &[u8]) -> String {
        if script.len() > MOST_BYTES {
            return format!("{} has more than 65,536 bytes, and {} is not among the first: divide it", name, self);
        }
        let lines = counted(script.split_inclusive(|byte| *byte == b'\n').count(), "line");
        let (bytes, end) = (counted(script.len(), "byte"), span_at(script, script.len()));
        let advice = format!("name a place up to {}, byte {}", end, script.len());
        format!("{} has {}, {}, and {} is past its end: {}", name, lines, bytes, self, advice)
    }

    /// What is said where it is past the end of a line, which is given with its break.
    fn past_the_line(&self, name: &str, line: usize, bytes: &[u8]) -> String {
        let text = bytes.strip_suffix(b"\n").map_or(bytes, |text| text.strip_suffix(b"\r").unwrap_or(text));
        let is_last = text.len() == bytes.len();
        let (which, end) = if is_last { (", the last,", "") } else { ("", " and a line break") };
        let length = counted(text.len(), "byte");
        let advice = format!("name a column from 1 to {}", bytes.len() + usize::from(is_last));
        format!("line {} of {}{} has {}{}, and {} is past that: {}", line, name, which, length, end, self, advice)
    }
}

impl fmt::Display for Place {
    fn fmt(&self, out: &mut fmt::Formatter) -> fmt::Result {
        match self.at {
            At::LineColumn(..) => write!(out, "{}", self.word),
            At::Byte(_) => write!(out, "byte {}", self.word),
        }
    }
}

/// Where a line starts, from 1, if the script has it. After a last line break the script's end is a line's start.
fn line_start(script: &[u8], line: usize) -> Option<usize> {
    let is_break = |(_at, byte): &(usize, &u8)| **byte == b'\n';
    match line.checked_sub(2) {
        None => Some(0),
        Some(breaks) => script.iter().enumerate().filter(is_break).nth(breaks).map(|(at, _byte)| at + 1),
    }
}
