//! The oracle: the given Rust lexer, unchanged, after `run`, and the same as text after `answer_line`.

use std::cell::Cell;
use std::panic;

use cases::{Answer, Case, Outcome};

// The module `lexer`, from the build folder.
include!(concat!(env!("OUT_DIR"), "/modules.rs"));
pub(crate) use lexer::stream::{ident, ident_start};

thread_local! {
    /// Whether a routine of the Rust is running, whose panic is an answer and not a message.
    static RUNNING: Cell<bool> = Cell::new(false);
}

/// Runs the case's routine on the Rust and replaces `answer` by what came of it.
pub fn run(case: &Case, answer: &mut Answer) {
    RUNNING.with(|running| running.set(true));
    lexer::stream::run(case, answer);
    RUNNING.with(|running| running.set(false));
}

/// The whole of a script by the Rust's own `tokenize`, as its users call it.
#[inline(never)]
pub fn tokenize(script: &[u8]) -> lexer::error::SyntaxResult<Vec<lexer::token::Token>> {
    lexer::Lexer::new().tokenize(script)
}

/// The same tokens, those of a kind that document 01 has.
pub fn tokens_of(script: &[u8]) -> lexer::error::SyntaxResult<Vec<cases::Token>> {
    Ok(tokenize(script)?.into_iter().filter_map(|token| lexer::stream::numbered(token).ok()).collect())
}

/// Keeps panics inside `run` from being printed; all others are printed as before. To be called once.
pub fn quiet_panics() {
    let before = panic::take_hook();
    panic::set_hook(Box::new(move |info| {
        if !RUNNING.with(|running| running.get()) {
            before(info);
        }
    }));
}

/// Answers case lines, with tables that are used again from line to line.
#[derive(Default)]
pub struct Lines {
    case: Case,
    answer: Answer,
}

impl Lines {
    /// Appends the answer to a case line, without a line break; a bad line is answered by a fault.
    pub fn answer_line(&mut self, line: &[u8], out: &mut Vec<u8>) {
        match self.case.read(line) {
            Ok(()) => run(&self.case, &mut self.answer),
            Err(wrong) => self.answer.outcome = Outcome::Fault(wrong),
        }
        self.answer.write(out);
    }
}
