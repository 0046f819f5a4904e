//! Runs one private routine of the lexer on one case. As a child module of `lexer` it may call them.

use std::any::Any;
use std::panic::{catch_unwind, AssertUnwindSafe};

use cases::{Answer, Case, Change, Frame, Outcome, Routine};

use super::byte_string::ByteString;
use super::error::{SyntaxError, SyntaxResult};
use super::state::source::Source;
use super::state::{StackFrame, State};
use super::token::{DocStringIndentationKind, DocStringKind, OpenTagKind, Span, Token, TokenKind};
use super::Lexer;

/// For the crate's root, where the Rust looks for the two macros.
pub(crate) use super::macros::{ident, ident_start};

/// The start of the panic text of `unreachable!`.
const UNREACHABLE: &str = "internal error: entered unreachable code";

/// Answers the case. A panic of the routine is caught here; `crate::quiet_panics` keeps it from being printed.
pub fn run(case: &Case, answer: &mut Answer) {
    answer.tokens.clear();
    let mut state = State::new(Source::new(&case.source));
    state.stack.clear();
    state.stack.extend([StackFrame::Scripting, own_frame(case)]);
    state.source.skip(case.position);

    let start = state.source.span();
    let mut tokens = Vec::new();
    let called = catch_unwind(AssertUnwindSafe(|| call(case, &mut state, &mut tokens)));
    answer.outcome = match called {
        Ok(Ok(())) => accepted(case, &state, tokens, answer),
        Ok(Err(error)) => refused(&error),
        Err(panic) => panicked(case.routine, start, panic),
    };
}

/// The frame that lies on top of the stack when the routine is called.
fn own_frame(case: &Case) -> StackFrame {
    match case.routine {
        Routine::Initial => StackFrame::Initial,
        Routine::DoubleQuote => StackFrame::DoubleQuote,
        Routine::ShellExec => StackFrame::ShellExec,
        Routine::Heredoc => text_block(DocStringKind::Heredoc, case),
        Routine::Nowdoc => text_block(DocStringKind::Nowdoc, case),
        Routine::LookingForVarname => StackFrame::LookingForVarname,
        Routine::LookingForProperty => StackFrame::LookingForProperty,
        Routine::Single | Routine::Double | Routine::Number => StackFrame::Scripting,
        Routine::PeekIdentifier | Routine::Skip | Routine::Scripting => StackFrame::Scripting,
    }
}

/// A text block's frame as `scripting` makes it.
fn text_block(kind: DocStringKind, case: &Case) -> StackFrame {
    StackFrame::DocString(kind, label(case), DocStringIndentationKind::None, 0)
}

fn label(case: &Case) -> ByteString {
    case.label.as_slice().into()
}

fn call(case: &Case, state: &mut State, tokens: &mut Vec<Token>) -> SyntaxResult<()> {
    let lexer = Lexer::new();
    let span = state.source.span();
    let reading = match case.routine {
        Routine::Initial => return lexer.initial(state, tokens),
        Routine::DoubleQuote => return lexer.double_quote(state, tokens),
        Routine::ShellExec => return lexer.shell_exec(state, tokens),
        Routine::Heredoc => return lexer.heredoc(state, tokens, label(case)),
        Routine::Nowdoc => return lexer.nowdoc(state, tokens, label(case)),
        Routine::LookingForVarname => {
            tokens.extend(lexer.looking_for_varname(state)?);
            return Ok(());
        }
        Routine::LookingForProperty => {
            tokens.push(lexer.looking_for_property(state)?);
            return Ok(());
        }
        Routine::Scripting => {
            tokens.push(lexer.scripting(state)?);
            return Ok(());
        }
        Routine::Single => Some(lexer.tokenize_single_quote_string(state)?),
        Routine::Double => Some(lexer.tokenize_double_quote_string(state)?),
        Routine::Number => Some(lexer.tokenize_number(state)?),
        Routine::PeekIdentifier => lexer.peek_identifier(state).map(|it| (TokenKind::Identifier, it.into())),
        Routine::Skip => {
            state.source.skip(case.count);
            None
        }
    };
    tokens.extend(reading.map(|(kind, value)| Token { kind, span, value }));
    Ok(())
}

/// Hands the tokens over to the answer and tells what became of cursor and stack.
fn accepted(case: &Case, state: &State, tokens: Vec<Token>, answer: &mut Answer) -> Outcome {
    for token in tokens {
        match numbered(token) {
            Ok(token) => answer.tokens.push(token),
            Err(kind) => return Outcome::Fault(format!("there is no kind {:?} here", kind)),
        }
    }
    match change(&own_frame(case), state) {
        Some(change) => Outcome::Accepted { cursor: place(state.source.span()), change },
        None => Outcome::Fault(format!("the stack has become {:?}", state.stack)),
    }
}

/// The token with its number here, or its kind where there is none for it.
pub fn numbered(token: Token) -> Result<cases::Token, TokenKind> {
    match kind_and_detail(&token.kind) {
        Some((kind, detail)) => Ok(cases::Token { kind, detail, span: place(token.span), value: token.value.bytes }),
        None => Err(token.kind),
    }
}

/// The stack was [Scripting, own frame]; what is it now?
fn change(before: &StackFrame, state: &State) -> Option<Change> {
    let bottom = frame(state.stack.front()?)?;
    let top = frame(state.stack.back()?)?;
    if bottom != Frame::Scripting {
        return None;
    }
    let unchanged = frame(before) == state.stack.get(1).and_then(frame);
    match state.stack.len() {
        1 => Some(Change::Leave),
        2 if unchanged => Some(Change::Keep),
        2 => Some(Change::Swap(top)),
        3 if unchanged => Some(Change::Enter(top)),
        _ => None,
    }
}

/// Document 01's name of a frame; it has none for Halted.
fn frame(frame: &StackFrame) -> Option<Frame> {
    match frame {
        StackFrame::Initial => Some(Frame::Initial),
        StackFrame::Scripting => Some(Frame::Scripting),
        StackFrame::Halted => None,
        StackFrame::DoubleQuote => Some(Frame::DoubleQuote),
        StackFrame::ShellExec => Some(Frame::ShellExec),
        StackFrame::DocString(DocStringKind::Heredoc, ..) => Some(Frame::Heredoc),
        StackFrame::DocString(DocStringKind::Nowdoc, ..) => Some(Frame::Nowdoc),
        StackFrame::LookingForVarname => Some(Frame::LookingForVarname),
        StackFrame::LookingForProperty => Some(Frame::LookingForProperty),
        StackFrame::VarOffset => Some(Frame::VarOffset),
    }
}

/// Document 01's number of a kind, or document 02's, and its detail.
fn kind_and_detail(kind: &TokenKind) -> Option<(u32, usize)> {
    let number = match kind {
        TokenKind::InlineHtml => 1,
        TokenKind::OpenTag(OpenTagKind::Full) => 2,
        TokenKind::OpenTag(OpenTagKind::Echo) => 3,
        TokenKind::OpenTag(OpenTagKind::Short) => 4,
        TokenKind::StringPart => 5,
        TokenKind::DollarLeftBrace => 6,
        TokenKind::LeftBrace => 7,
        TokenKind::DoubleQuote => 8,
        TokenKind::Backtick => 9,
        TokenKind::Variable => 10,
        TokenKind::EndDocString(DocStringIndentationKind::None, amount) => return Some((11, *amount)),
        TokenKind::EndDocString(DocStringIndentationKind::Space, amount) => return Some((12, *amount)),
        TokenKind::EndDocString(DocStringIndentationKind::Tab, amount) => return Some((13, *amount)),
        TokenKind::Identifier => 14,
        TokenKind::QuestionArrow => 15,
        TokenKind::Arrow => 16,
        TokenKind::LiteralSingleQuotedString => 17,
        TokenKind::LiteralDoubleQuotedString => 18,
        TokenKind::LiteralInteger => 19,
        TokenKind::LiteralFloat => 20,
        TokenKind::SingleLineComment | TokenKind::HashMarkComment => 21,
        TokenKind::MultiLineComment | TokenKind::DocumentComment => 21,
        _ => return None,
    };
    Some((number, 0))
}

fn refused(error: &SyntaxError) -> Outcome {
    let number = match error {
        SyntaxError::UnexpectedEndOfFile(_) => 1,
        SyntaxError::InvalidUnicodeEscape(_) => 2,
        SyntaxError::InvalidOctalEscape(_) => 3,
        SyntaxError::InvalidDocIndentation(_) => 4,
        other => return Outcome::Fault(format!("document 01 has no refusal {:?}", other)),
    };
    Outcome::Refused { number, span: place(error.span()) }
}

/// Refusal 5 stands for the `unreachable!` of `looking_for_property`; no other panic is foreseen.
fn panicked(routine: Routine, start: Span, panic: Box<dyn Any + Send>) -> Outcome {
    let text = match (panic.downcast_ref::<&str>(), panic.downcast_ref::<String>()) {
        (Some(text), _) => text,
        (None, Some(text)) => text.as_str(),
        (None, None) => "without a text",
    };
    if routine == Routine::LookingForProperty && text.starts_with(UNREACHABLE) {
        return Outcome::Refused { number: 5, span: place(start) };
    }
    Outcome::Fault(format!("the Rust panicked: {}", text))
}

fn place(span: Span) -> cases::Span {
    cases::Span { line: span.line, column: span.column, position: span.position }
}
