//! What a byte counts as (document 02, P6), a flag each; and what PHP says of all bytes, stored: lines
//! `QUESTION => RANGES`, where ■ stands for each byte in turn. A byte of the ranges, and no other, must have the flag.

use std::path::Path;

pub const BLANK: u32 = 1;
pub const OCTAL: u32 = 2;
pub const DIGIT: u32 = 4;
pub const HEX: u32 = 8;
pub const LETTER: u32 = 16;
pub const START: u32 = 32;
pub const IDENTIFIER: u32 = 64;
pub const SIGN: u32 = 128;

/// What PHP was asked, line by line, and the flag that its answer tells.
const ASKED: [(&str, u32); 9] = [
    ("within T_END_HEREDOC <<<'E'⏎■E;", BLANK),
    ("within T_LNUMBER 0o■", OCTAL),
    ("true strlen(\"\\1■\") === 1", OCTAL),
    ("within T_LNUMBER 1■", DIGIT),
    ("within T_LNUMBER 0x■", HEX),
    ("true strlen(\"\\x■\") === 1", HEX),
    ("true ctype_alpha('■')", LETTER),
    ("within T_STRING ■z", START),
    ("within T_STRING z■", IDENTIFIER),
];

/// Says `ok NAME (N cases)`, or for which byte PHP says another thing; true if it says the same of all.
pub fn compare(name: &str, path: &Path, classes_of: impl Fn(u8) -> u32) -> bool {
    let read = std::fs::read_to_string(path).map_err(|error| format!("  {}: {}", path.display(), error));
    match read.and_then(|text| first_difference(&text, classes_of)) {
        Ok(count) => println!("ok {} ({} cases)", name, count),
        Err(wrong) => {
            println!("FAILED {}\n{}", name, wrong);
            return false;
        }
    }
    true
}

/// The number of answers, or the first that is not PHP's.
fn first_difference(text: &str, classes_of: impl Fn(u8) -> u32) -> Result<usize, String> {
    let lines: Vec<&str> = text.lines().filter(|line| !line.is_empty() && !line.starts_with('#')).collect();
    if lines.len() != ASKED.len() {
        return Err(format!("  the file has {} answers in place of {}", lines.len(), ASKED.len()));
    }
    for (line, (question, flag)) in lines.iter().zip(ASKED) {
        let ranges = line.strip_prefix(question).and_then(|rest| rest.strip_prefix(" => ")).and_then(ranges_of);
        let ranges = ranges.ok_or_else(|| format!("  {} is no line `{} => RANGES`", line, question))?;
        for byte in 0..=u8::MAX {
            let php = ranges.iter().any(|(first, last)| (*first..=*last).contains(&byte));
            let classes = classes_of(byte);
            if php != (classes & flag != 0) {
                return Err(format!("  byte {:02x}: {}\n  PHP  {}\n  here {}", byte, question, php, classes));
            }
        }
    }
    Ok(ASKED.len() * 256)
}

/// `30-39 5f` as the first and last byte of each range.
fn ranges_of(words: &str) -> Option<Vec<(u8, u8)>> {
    let byte = |word: &str| u8::from_str_radix(word, 16).ok();
    let range = |word: &str| {
        let (first, last) = word.split_once('-').unwrap_or((word, word));
        Some((byte(first)?, byte(last)?))
    };
    words.split(' ').map(range).collect()
}
