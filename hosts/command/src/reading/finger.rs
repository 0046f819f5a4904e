//! Where a finger is among the tokens of a script: in which token, or between which.

use std::ops::Range;

use puretakoi::{kinds, Frame, Listed, Reading, Refusal, TokenList};

/// Where a finger is among the tokens.
#[derive(Clone, Debug, PartialEq, Eq)]
pub enum Spot {
    /// In the bytes of a token, which are these.
    Token(Listed, Range<usize>),
    /// In the indentation of a closing line, whose token this is.
    ClosingIndentation(Listed),
    /// In text that no token has, between two tokens.
    Between(Option<Listed>, Option<Listed>),
    /// On a line break that goes, between two tokens of a text block.
    LostBreak(Option<Listed>, Option<Listed>),
    /// At the script's end, after its last token.
    End(Option<Listed>),
    /// In what is not read, for the reading is refused; after the last token that is read.
    Unread(Option<Listed>, Refusal),
}

impl Spot {
    /// The token that the finger is in.
    pub fn token(&self) -> Option<&Listed> {
        match self {
            Spot::Token(listed, _) | Spot::ClosingIndentation(listed) => Some(listed),
            _ => None,
        }
    }

    /// The token before the finger, where it is in none.
    pub fn before(&self) -> Option<&Listed> {
        match self {
            Spot::Between(before, _) | Spot::LostBreak(before, _) | Spot::End(before) | Spot::Unread(before, _) => {
                before.as_ref()
            }
            _ => None,
        }
    }

    /// The token after the finger, where it is in none.
    pub fn after(&self) -> Option<&Listed> {
        match self {
            Spot::Between(_, after) | Spot::LostBreak(_, after) => after.as_ref(),
            _ => None,
        }
    }

    /// Its name, for programs.
    pub fn name(&self) -> &'static str {
        match self {
            Spot::Token(..) => "token",
            Spot::ClosingIndentation(_) => "closing-indentation",
            Spot::Between(..) => "between",
            Spot::LostBreak(..) => "lost-break",
            Spot::End(_) => "end",
            Spot::Unread(..) => "unread",
        }
    }
}

/// Where a byte is among the tokens of a script.
pub fn spot(tokens: &TokenList, script: &[u8], byte: usize) -> Spot {
    let before = tokens.at(byte).map(|under| under.listed);
    match (tokens.end(), before) {
        (Err(refusal), before) if byte >= tokens.session().position() as usize => Spot::Unread(before, refusal),
        (_, before) if byte >= script.len() => Spot::End(before),
        (_, Some(found)) if found.passed.contains(&byte) => in_step(tokens, script, byte, found),
        (_, before) => {
            let after = before.as_ref().and_then(|before| tokens.get(before.number + 1));
            Spot::Between(before, after)
        }
    }
}

/// Where a byte is in what a step passed, of whose tokens the last one at or before it is found.
fn in_step(tokens: &TokenList, script: &[u8], byte: usize, found: Listed) -> Spot {
    let next = tokens.get(found.number + 1).filter(|next| next.passed == found.passed);
    let end = next.map_or(found.passed.end, |next| next.token.span.position as usize);
    let own = first_byte(&found)..end;
    if own.contains(&byte) {
        return Spot::Token(found, own);
    }
    let text = found.passed.start..own.start.saturating_sub(found.token.detail as usize);
    if byte >= text.end {
        return Spot::ClosingIndentation(found);
    }
    let kept = text.start..text.end - lost_break(tokens, script, &found, text.clone());
    let before = found.number.checked_sub(1).and_then(|number| tokens.get(number));
    match before {
        before if byte >= kept.end => Spot::LostBreak(before, Some(found)),
        Some(part) if part.passed == found.passed => Spot::Token(part, kept),
        before => Spot::Between(before, Some(found)),
    }
}

/// The first byte of a token. One that ends a part of a text bears the place of that part, and has the last bytes of
/// the step.
fn first_byte(listed: &Listed) -> usize {
    let length = match listed.token.kind {
        kinds::BACKTICK | kinds::LEFT_BRACE | kinds::DOUBLE_QUOTE => 1,
        kinds::DOLLAR_LEFT_BRACE => 2,
        kinds::VARIABLE => listed.token.value.len(),
        _ if is_closer(listed) => listed.token.value.len(),
        _ => return listed.token.span.position as usize,
    };
    listed.passed.end - length
}

/// Whether a token closes a text block.
pub fn is_closer(listed: &Listed) -> bool {
    let closers = [kinds::END_DOC_STRING_NONE, kinds::END_DOC_STRING_SPACE, kinds::END_DOC_STRING_TAB];
    closers.contains(&listed.token.kind)
}

/// How many bytes at the end of a text are the line break that goes: before a closing line, and in a heredoc before
/// what is interpolated. Of a CRLF the sheet reading alone takes the CR too.
fn lost_break(tokens: &TokenList, script: &[u8], after: &Listed, text: Range<usize>) -> usize {
    let text = &script[text];
    let is_sheet = tokens.session().reading() == Some(Reading::Sheet) && matches!(after.frame, Frame::Nowdoc(_));
    match (is_closer(after), after.frame) {
        (true, _) if is_sheet && text.ends_with(b"\r\n") => 2,
        (true, _) | (false, Frame::Heredoc(_)) => usize::from(text.ends_with(b"\n")),
        _ => 0,
    }
}
