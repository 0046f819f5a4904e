//! An answer: what a routine did to cursor, stack and tokens, or what it refused. README.md gives its line.

use crate::hex;

/// A place in a source: line and column from 1, position from 0.
#[derive(Clone, Copy, Debug, PartialEq, Eq)]
pub struct Span {
    pub line: usize,
    pub column: usize,
    pub position: usize,
}

/// The frames of document 01's mode stack.
#[derive(Clone, Copy, Debug, PartialEq, Eq)]
pub enum Frame {
    Initial,
    Scripting,
    DoubleQuote,
    ShellExec,
    Heredoc,
    Nowdoc,
    LookingForVarname,
    LookingForProperty,
    VarOffset,
}

/// What became of the stack's top.
#[derive(Clone, Copy, Debug, PartialEq, Eq)]
pub enum Change {
    Keep,
    Swap(Frame),
    Enter(Frame),
    Leave,
}

/// A token with document 01's kind number and detail.
#[derive(Clone, Debug, PartialEq, Eq)]
pub struct Token {
    pub kind: u32,
    pub detail: usize,
    pub span: Span,
    pub value: Vec<u8>,
}

/// How a call ended. A fault is what no ported routine may give.
#[derive(Clone, Debug, PartialEq, Eq)]
pub enum Outcome {
    Accepted { cursor: Span, change: Change },
    Refused { number: u32, span: Span },
    Fault(String),
}

/// An outcome and, where it is accepted, the tokens.
#[derive(Clone, Debug, PartialEq, Eq)]
pub struct Answer {
    pub outcome: Outcome,
    pub tokens: Vec<Token>,
}

impl Default for Answer {
    fn default() -> Self {
        Answer { outcome: Outcome::Fault("no case was run".to_string()), tokens: Vec::new() }
    }
}

impl Answer {
    /// Appends the answer as a line, without its line break.
    pub fn write(&self, out: &mut Vec<u8>) {
        match &self.outcome {
            Outcome::Accepted { cursor, change } => {
                out.extend_from_slice(b"ok ");
                write_span(cursor, b' ', out);
                write_change(change, out);
                self.tokens.iter().for_each(|token| write_token(token, out));
            }
            Outcome::Refused { number, span } => {
                out.extend_from_slice(b"refused ");
                write_number(*number as usize, b' ', out);
                write_span(span, b' ', out);
                out.pop();
            }
            Outcome::Fault(text) => {
                out.extend_from_slice(b"fault ");
                out.extend_from_slice(text.replace('\n', " ").as_bytes());
            }
        }
    }
}

fn write_token(token: &Token, out: &mut Vec<u8>) {
    out.push(b' ');
    write_number(token.kind as usize, b':', out);
    write_number(token.detail, b':', out);
    write_span(&token.span, b':', out);
    hex::write(&token.value, out);
}

fn write_change(change: &Change, out: &mut Vec<u8>) {
    let (word, frame) = match change {
        Change::Keep => ("keep", None),
        Change::Swap(frame) => ("swap:", Some(frame)),
        Change::Enter(frame) => ("enter:", Some(frame)),
        Change::Leave => ("leave", None),
    };
    out.extend_from_slice(word.as_bytes());
    if let Some(frame) = frame {
        out.extend_from_slice(frame.name().as_bytes());
    }
}

/// The three numbers, each with the mark after it.
fn write_span(span: &Span, mark: u8, out: &mut Vec<u8>) {
    write_number(span.line, mark, out);
    write_number(span.column, mark, out);
    write_number(span.position, mark, out);
}

/// The number in decimal, by hand because formatting would be half the time of a short case.
fn write_number(mut number: usize, mark: u8, out: &mut Vec<u8>) {
    let mut digits = [0; 20];
    let mut first = digits.len();
    loop {
        first -= 1;
        digits[first] = b'0' + (number % 10) as u8;
        number /= 10;
        if number == 0 {
            break;
        }
    }
    out.extend_from_slice(&digits[first..]);
    out.push(mark);
}

impl Frame {
    pub fn name(self) -> &'static str {
        match self {
            Frame::Initial => "Initial",
            Frame::Scripting => "Scripting",
            Frame::DoubleQuote => "DoubleQuote",
            Frame::ShellExec => "ShellExec",
            Frame::Heredoc => "Heredoc",
            Frame::Nowdoc => "Nowdoc",
            Frame::LookingForVarname => "LookingForVarname",
            Frame::LookingForProperty => "LookingForProperty",
            Frame::VarOffset => "VarOffset",
        }
    }
}
