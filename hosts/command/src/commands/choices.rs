//! The file beside a record file that says what made it: a line `name: value` for each choice.

use crate::commands::octals::octal_name;
use crate::commands::tokens::reading_name;

/// The program and its version.
pub const PROGRAM: &str = concat!("puretakoi ", env!("CARGO_PKG_VERSION"));

/// What a record file was made by and of.
#[derive(Clone, Debug, PartialEq, Eq)]
pub struct Choices {
    /// How nowdoc blocks were read: `ported` or `sheet`.
    pub reading: String,
    /// What an octal escape over 377 was: refused, `rust`, or its low eight bits, `manual`.
    pub octal: String,
    /// The script's name, without its folder.
    pub script: String,
    /// How many bytes the script has.
    pub bytes: usize,
    /// The script's CRC-32.
    pub crc: u32,
    /// How many tokens there are.
    pub tokens: usize,
    /// How many bytes their values have.
    pub values: usize,
    /// The program and its version.
    pub program: String,
}

impl Choices {
    /// What is told of a script and its tables.
    pub fn new(made_by: puretakoi::Choices, script: String, source: &[u8], tokens: usize, values: usize) -> Choices {
        Choices {
            reading: reading_name(made_by.nowdocs).to_string(),
            octal: octal_name(made_by.octals).to_string(),
            script,
            bytes: source.len(),
            crc: crc_32(source),
            tokens,
            values,
            program: PROGRAM.to_string(),
        }
    }

    /// The file's text.
    pub fn text(&self) -> String {
        format!(
            "reading: {}\noctal: {}\nscript: {}\nbytes: {}\ncrc-32: {:08x}\ntokens: {}\nvalue bytes: {}\n\
             program: {}\n",
            self.reading, self.octal, self.script, self.bytes, self.crc, self.tokens, self.values, self.program
        )
    }

    /// What a file's text says; none where a choice is missing or is none. Octals are not named in the text of an
    /// older writer, which refused those over 377.
    pub fn parse(text: &str) -> Option<Choices> {
        let value = |name: &str| text.lines().find_map(|line| line.strip_prefix(name)?.strip_prefix(": "));
        let octal = value("octal").unwrap_or("rust");
        Some(Choices {
            reading: value("reading").filter(|word| ["ported", "sheet"].contains(word))?.to_string(),
            octal: Some(octal).filter(|word| ["rust", "manual"].contains(word))?.to_string(),
            script: value("script")?.to_string(),
            bytes: value("bytes")?.parse().ok()?,
            crc: u32::from_str_radix(value("crc-32")?, 16).ok()?,
            tokens: value("tokens")?.parse().ok()?,
            values: value("value bytes")?.parse().ok()?,
            program: value("program")?.to_string(),
        })
    }

    /// Whether these are the bytes that the record file was made of.
    pub fn are_of(&self, source: &[u8]) -> bool {
        self.bytes == source.len() && self.crc == crc_32(source)
    }
}

/// The CRC-32 of gzip, zip and PNG files.
fn crc_32(bytes: &[u8]) -> u32 {
    !bytes.iter().fold(!0, |crc, byte| after_byte(crc ^ u32::from(*byte)))
}

/// The remainder when eight more bits are taken in, the lowest first.
fn after_byte(crc: u32) -> u32 {
    (0..8).fold(crc, |crc, _bit| if crc & 1 == 1 { (crc >> 1) ^ 0xEDB8_8320 } else { crc >> 1 })
}

#[cfg(test)]
mod tests {
    use super::{crc_32, Choices};
    use puretakoi::{Octal, Reading};

    /// What a record file says of so many tokens and value bytes.
    fn said(made_by: impl Into<puretakoi::Choices>, script: &str, source: &[u8], counts: (usize, usize)) -> Choices {
        Choices::new(made_by.into(), script.to_string(), source, counts.0, counts.1)
    }

    /// The check value that the checksum is published with, and that of no bytes.
    #[test]
    fn the_checksum_is_the_one_of_its_name() {
        assert_eq!(crc_32(b"123456789"), 0xCBF4_3926);
        assert_eq!(crc_32(b""), 0);
    }

    #[test]
    fn a_text_is_read_as_it_was_written() {
        let choices = said(Reading::Sheet, "a: b.php", b"123456789", (3, 7));
        let text = "reading: sheet\noctal: rust\nscript: a: b.php\nbytes: 9\ncrc-32: cbf43926\ntokens: 3\n\
                    value bytes: 7\nprogram: puretakoi 0.1.0\n";
        assert_eq!(choices.text(), text);
        assert_eq!(Choices::parse(text), Some(choices.clone()));
        assert_eq!(Choices::parse(&text.replace("octal: rust\n", "")), Some(choices));
        let manual = said(Octal::Manual, "a.php", b"", (0, 0));
        assert!(manual.text().starts_with("reading: ported\noctal: manual\nscript: a.php\n"), "{}", manual.text());
        assert_eq!(Choices::parse(&manual.text()), Some(manual));
    }

    #[test]
    fn a_text_without_a_choice_is_none() {
        let text = said(Reading::Ported, "a.php", b"", (0, 0)).text();
        for line in text.lines().filter(|line| !line.starts_with("octal")) {
            assert_eq!(Choices::parse(&text.replace(line, "")), None, "without {}", line);
        }
        assert_eq!(Choices::parse(&text.replace("ported", "other")), None);
        assert_eq!(Choices::parse(&text.replace("octal: rust", "octal: other")), None);
        assert_eq!(Choices::parse(&text.replace("bytes: 0", "bytes: none")), None);
    }

    #[test]
    fn other_bytes_are_told() {
        let choices = said(Reading::Ported, "a.php", b"kerb", (1, 4));
        assert!(choices.are_of(b"kerb"));
        for other in [&b"Kerb"[..], b"kerb\0", b"ker", b""] {
            assert!(!choices.are_of(other));
        }
    }
}
