//! A script stepped to its end, as what is told of each step: the Rust's routines below document 01's table and document 02's comments.

use cases::{Function, Span};
use telling::bytes::counted_on;
use telling::outcome::{Outcome, Text};
use telling::session::{Choices, Session};

/// What is printed of a script, a line each.
pub fn rows_of(script: &[u8]) -> Vec<String> {
    let mut walk = Walk { text: Text::default(), session: Session::fresh(Choices::default()), rows: Vec::new() };
    while walk.step(script) {}
    walk.rows
}

struct Walk {
    text: Text,
    session: Session,
    rows: Vec<String>,
}

impl Walk {
    /// One step; false after the last.
    fn step(&mut self, script: &[u8]) -> bool {
        self.text.lend(Function::Step, script, &self.session);
        let from = self.session.span;
        match self.text.outcome() {
            Outcome::Refused { number, span } => {
                self.rows.push(format!("refused {} {}", number, row(counted_on(from, span))));
                false
            }
            Outcome::Done { tokens, cursor, change, label: (start, len), finished } => {
                self.session.change(change, (from.position + start, len));
                self.session.span = counted_on(from, cursor);
                let end = self.session.span.position;
                for token in tokens {
                    let place = row(counted_on(from, token.span));
                    self.rows.push(format!("{} {} {} {} {}", token.kind, place, token.detail, token.value.len(), end));
                }
                if finished {
                    self.rows.push(format!("end {}", self.session.span.position));
                }
                !finished
            }
        }
    }
}

fn row(span: Span) -> String {
    format!("{} {} {}", span.line, span.column, span.position)
}
