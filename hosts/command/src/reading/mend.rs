//! How a reading goes on behind a refusal, where that is safe, and where it is a guess from there on.

use puretakoi::{refusals, Frame, Refusal, Session, Span};

use crate::reading::fault::{label, near_closer};
use crate::reading::php::{block_closer, closer, next_line, Closer};

/// A way to go on.
#[derive(Clone, Copy, Debug, PartialEq, Eq)]
pub enum WayOn {
    /// Read the same again, with a plain byte at a place.
    Mask(usize),
    /// Go on from a place in the script.
    GoOn(usize),
    /// Go on from a place in the script, which is a guess.
    Guess(usize),
}

/// The way to go on behind a refusal, if there is one, with the session as it is then, where its top frame opened,
/// and where the string ends that may have a quote too many.
pub fn way_on(
    script: &[u8],
    refusal: Refusal,
    session: &Session,
    opening: Span,
    suspect: Option<Span>,
) -> Option<WayOn> {
    let top = session.top()?;
    match refusal.number {
        refusals::INVALID_UNICODE_ESCAPE | refusals::INVALID_OCTAL_ESCAPE => {
            let front = script.get(..refusal.span.position as usize)?;
            front.iter().rposition(|byte| *byte == b'\\').map(WayOn::Mask)
        }
        refusals::STRAY_INDENTATION | refusals::INVALID_DOC_INDENTATION => {
            block_end(script, session).map(|closer| WayOn::GoOn(closer.end))
        }
        refusals::UNEXPECTED_END_OF_FILE => match top {
            Frame::Nowdoc(_) | Frame::Heredoc(_) => behind_block(script, session),
            Frame::DoubleQuote => Some(behind_line(script, suspect.unwrap_or(opening))),
            Frame::ShellExec => Some(behind_line(script, opening)),
            Frame::Scripting if is_quote(script, session) => {
                Some(behind_line(script, suspect.unwrap_or_else(|| session.span())))
            }
            _ => None,
        },
        _ => None,
    }
}

/// Where PHP closes the block that is being read. The text of a heredoc may start behind a variable, and then not
/// with a line.
pub fn block_end(script: &[u8], session: &Session) -> Option<Closer> {
    let (label, at) = (label(session, script)?, session.position() as usize);
    match session.top()? {
        Frame::Nowdoc(_) => block_closer(script, at, label),
        _ => closer(script, at..script.len(), label),
    }
}

/// Behind the label where PHP closes an open block, else behind the line that should have closed it.
fn behind_block(script: &[u8], session: &Session) -> Option<WayOn> {
    let there = block_end(script, session).map(|closer| WayOn::GoOn(closer.end));
    there.or_else(|| near_closer(script, session).map(|near| WayOn::Guess(near.behind)))
}

/// Behind the line in which an open string or command began, or one has a quote too many.
fn behind_line(script: &[u8], place: Span) -> WayOn {
    WayOn::Guess(next_line(script, place.position as usize))
}

/// Whether a quote stands at the cursor.
fn is_quote(script: &[u8], session: &Session) -> bool {
    matches!(script.get(session.position() as usize), Some(b'\'' | b'"'))
}
