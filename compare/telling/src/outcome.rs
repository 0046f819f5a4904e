//! What a step or a reading comes to with the end announced and tables of any size: the Rust's own routines below document 01's
//! table. Places are counted from line 1, column 1, position 0 at the cursor.

use cases::{Answer, Case, Change, Frame, Function, Routine, Span, Token};

use crate::bytes::{past, START};
use crate::octals::{has_octals, run_as_manual};
use crate::session::{Choices, Session, MOST_FRAMES};
use crate::sheet::{sheet, Sheet};
use crate::table::{scripting, var_offset, Label, Row, NO_LABEL};

/// Tokens, cursor and change of frame, or a refusal.
#[derive(Clone, Debug, PartialEq, Eq)]
pub enum Outcome {
    Done { tokens: Vec<Token>, cursor: Span, change: Change, label: Label, finished: bool },
    Refused { number: u32, span: Span },
}

/// The text at a session's cursor, and what of the session an outcome depends on.
pub struct Text {
    /// Its source is the text, its label that of the top frame.
    pub case: Case,
    answer: Answer,
    function: Function,
    frame: Frame,
    depth: usize,
    choices: Choices,
}

impl Default for Text {
    fn default() -> Self {
        let (case, answer) = (Case::default(), Answer::default());
        let choices = Choices::default();
        Text { case, answer, function: Function::Step, frame: Frame::Initial, depth: 1, choices }
    }
}

impl Text {
    /// Takes up what a good session has ahead of it. The Rust looks at nothing before its cursor.
    pub fn lend(&mut self, function: Function, source: &[u8], session: &Session) {
        let (frame, (start, len)) = session.top();
        self.function = function;
        self.frame = frame;
        self.depth = session.depth;
        self.choices = session.choices;
        self.case.label.clear();
        self.case.label.extend_from_slice(&source[start..start + len]);
        self.case.source.clear();
        self.case.source.extend_from_slice(&source[session.span.position..]);
    }

    /// What the text comes to.
    pub fn outcome(&mut self) -> Outcome {
        let outcome = match self.function {
            Function::ReadNumber => self.routine(Routine::Number, 0),
            Function::ReadSingle => self.routine(Routine::Single, 0),
            Function::ReadDouble => self.routine(Routine::Double, 0),
            _ => self.step(),
        };
        match outcome {
            Outcome::Done { change: Change::Enter(_), .. } if self.depth == MOST_FRAMES => refused(9, START),
            outcome => outcome,
        }
    }

    fn step(&mut self) -> Outcome {
        match self.frame {
            Frame::Initial => self.routine(Routine::Initial, 0),
            Frame::Scripting => self.row(scripting(&self.case.source, self.depth)),
            Frame::DoubleQuote => self.routine(Routine::DoubleQuote, 0),
            Frame::ShellExec => self.routine(Routine::ShellExec, 0),
            Frame::Heredoc => self.routine(Routine::Heredoc, 0),
            Frame::Nowdoc if self.choices.sheet => self.sheet(),
            Frame::Nowdoc => self.routine(Routine::Nowdoc, 0),
            Frame::LookingForVarname => self.routine(Routine::LookingForVarname, 0),
            Frame::LookingForProperty => self.routine(Routine::LookingForProperty, 0),
            Frame::VarOffset => self.row(var_offset(&self.case.source)),
        }
    }

    fn row(&mut self, row: Row) -> Outcome {
        match row {
            Row::Finished => done(Vec::new(), START, Change::Keep, NO_LABEL, true),
            Row::Open => refused(1, past(START, &self.case.source)),
            Row::Comment { count } => {
                let value = self.case.source[..count].to_vec();
                let cursor = past(START, &value);
                done(vec![Token { kind: 21, detail: 0, span: START, value }], cursor, Change::Keep, NO_LABEL, false)
            }
            Row::Pass { count, change, label } => {
                done(Vec::new(), past(START, &self.case.source[..count]), change, label, false)
            }
            Row::Read { passed, routine } => self.routine(routine, passed),
        }
    }

    /// A routine of the Rust after passed bytes. Tokens of a quoted string bear the span of its quote.
    fn routine(&mut self, routine: Routine, passed: usize) -> Outcome {
        self.case.routine = routine;
        self.case.position = passed;
        if self.choices.manual && has_octals(routine) {
            run_as_manual(&mut self.case, &mut self.answer);
        } else {
            oracle::run(&self.case, &mut self.answer);
        }
        let mut tokens = std::mem::take(&mut self.answer.tokens);
        if passed > 0 {
            tokens.iter_mut().for_each(|token| token.span = START);
        }
        match &self.answer.outcome {
            cases::Outcome::Accepted { cursor, change } => {
                let finished = routine == Routine::Initial && *change == Change::Keep;
                done(tokens, *cursor, *change, NO_LABEL, finished)
            }
            cases::Outcome::Refused { number, span } => refused(*number, *span),
            cases::Outcome::Fault(text) => panic!("the Rust's answer is none: {} at {:?}", text, self.case),
        }
    }

    /// The sheet reading; its tokens are those of `nowdoc`.
    fn sheet(&self) -> Outcome {
        let place = |end: usize| past(START, &self.case.source[..end]);
        match sheet(&self.case.source, &self.case.label) {
            Sheet::Refused { number, at } => refused(number, place(at)),
            Sheet::Closed { text, blank, width, end } => {
                let kind = match blank {
                    None => 11,
                    Some(b' ') => 12,
                    Some(_) => 13,
                };
                let closer = Token { kind, detail: width, span: START, value: self.case.label.clone() };
                let part = Token { kind: 5, detail: 0, span: START, value: text };
                let tokens = if part.value.is_empty() { vec![closer] } else { vec![part, closer] };
                done(tokens, place(end), Change::Swap(Frame::Scripting), NO_LABEL, false)
            }
        }
    }
}

fn done(tokens: Vec<Token>, cursor: Span, change: Change, label: Label, finished: bool) -> Outcome {
    Outcome::Done { tokens, cursor, change, label, finished }
}

fn refused(number: u32, span: Span) -> Outcome {
    Outcome::Refused { number, span }
}
