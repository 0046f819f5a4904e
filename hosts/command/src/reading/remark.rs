//! A remark: a comment of a script and where it stands.

use puretakoi::{kinds, Record, Span};

/// A comment of a script.
#[derive(Clone, Debug, PartialEq, Eq)]
pub struct Remark {
    /// Where its first byte stands.
    pub span: Span,
    /// Its bytes, with those that begin it and those that close it.
    pub text: Vec<u8>,
    /// Whether it was read where the reading is a guess.
    pub is_guess: bool,
    /// Whether an LF follows it in the script.
    is_before_lf: bool,
}

impl Remark {
    /// The remark that a token of a script is, if it is a comment.
    pub fn new(record: &Record, pool: &[u8], script: &[u8]) -> Option<Remark> {
        let text = record.value(pool).filter(|_| record.kind == kinds::COMMENT)?;
        let is_before_lf = script.get(record.span.position as usize + text.len()) == Some(&b'\n');
        Some(Remark { span: record.span, text: text.to_vec(), is_guess: false, is_before_lf })
    }

    /// The remark cut to so many bytes, behind which no LF stands.
    pub fn cut(mut self, length: usize) -> Remark {
        self.text.truncate(length);
        Remark { is_before_lf: false, ..self }
    }

    /// Its lines without their breaks. A comment that ends with its line has the CR of a CRLF, which is not shown;
    /// a CR that no LF follows is, for PHP ends such a comment at it.
    pub fn lines(&self) -> impl Iterator<Item = &[u8]> {
        let is_lf = |byte: &u8| *byte == b'\n';
        let breaks = self.text.iter().filter(|byte| is_lf(byte)).count() + usize::from(self.is_before_lf);
        self.text.split(is_lf).zip(0..).map(move |(line, number)| match line.strip_suffix(b"\r") {
            Some(front) if number < breaks => front,
            _ => line,
        })
    }
}
