//! `cut`: the literal or the comment at a place of a script, as it is written there.

use std::ops::Range;

use puretakoi::{refusals, Frame, Listed, Refusal, Span};

use crate::commands::arguments::Call;
use crate::commands::check::refused_alone;
use crate::commands::options::{OCTAL, PORTED};
use crate::commands::output::{complain, written_bytes, NOT_DONE, REFUSED};
use crate::commands::pointed::Pointed;
use crate::commands::pointing::{self, Pointing};
use crate::commands::Verb;
use crate::reading::finger::Spot;
use crate::reading::warning::Warning;

/// The verb.
pub const VERB: Verb = Verb {
    name: "cut",
    groups: &[&[&PORTED], &[&OCTAL]],
    operands: "FILE LINE:COLUMN|BYTE",
    about: "writes the literal or the comment at a place as it stands in the script",
    more: "\
FILE and the place are named as for at. A quoted string is written with both quotes and all escapes as they stand, a
number and a comment as they stand, byte for byte; nothing is added, not even a line break. A comment of one line is
written without the LF that ends its line, but with the CR of a CRLF. A string with an interpolation is no literal, nor
is a text block. Where none is, nothing is written, and a line on standard error tells what is there and where the
nearest ones are. Where PHP reads something else before or at the place, another line tells that. Without --octal an
octal escape over 377 is read as in PHP, with --ported too.
Status 1: the script is refused before or at the place. Status 2: no literal and no comment is there. Status 3: the
bytes are written, but PHP reads something else.",
    run,
};

/// Why nothing is cut, in a line, and the status.
#[derive(Debug, PartialEq, Eq)]
pub struct Fault {
    /// The line.
    pub line: String,
    /// The status.
    pub status: u8,
}

/// Writes what is at the place that is named.
fn run(call: &Call) -> Result<u8, String> {
    pointing::run(call, write)
}

/// Writes the literal or the comment, or tells why nothing is written; the status. What PHP reads otherwise may be
/// why, so it is told in both cases, without how `view` reads on.
fn write(_call: &Call, pointing: &Pointing) -> u8 {
    let pointed = pointing.pointed();
    let warning = pointed.warning_in_words(Warning::short_sentence);
    warning.iter().for_each(|told| complain(&format!("warning: {}: {}", pointing.name, told)));
    match cut(&pointing.name, &pointed) {
        Ok(bytes) => written_bytes(&pointing.script[bytes], pointed.status()),
        Err(fault) => {
            complain(&fault.line);
            fault.status
        }
    }
}

/// The bytes to cut out of a script of this name; else why there are none.
pub fn cut(name: &str, pointed: &Pointed) -> Result<Range<usize>, Fault> {
    pointed.literal().ok_or_else(|| {
        let place = format!("{}, byte {}", pointed.span, pointed.span.position);
        match &pointed.spot {
            Spot::Unread(_, refusal) => {
                let line = format!("nothing can be cut at {} of {}: {}", place, name, unread(pointed, *refusal));
                Fault { line, status: REFUSED }
            }
            spot => {
                let (there, advice) = (what_is_there(pointed, spot), advice(pointed));
                let line = format!("{} has no literal and no comment at {}, but {}: {}", name, place, there, advice);
                Fault { line, status: NOT_DONE }
            }
        }
    })
}

/// Why the place is not read: the reading is refused before it or at it.
fn unread(pointed: &Pointed, refusal: Refusal) -> String {
    let why = match (refusal.number, &pointed.refusal) {
        (refusals::TOO_LARGE, _) | (_, None) => return refused_alone(refusal).message,
        (_, Some(finding)) => &finding.message,
    };
    format!("nothing is read from {} on: {}", pointed.tokens.session().span(), why)
}

/// What is at the place instead of a literal, in words.
fn what_is_there(pointed: &Pointed, spot: &Spot) -> String {
    match spot {
        Spot::Token(listed, _own) => {
            let (number, kind) = (listed.number + 1, listed.token.kind_name());
            format!("token {} ({}){}", number, kind, within(pointed, Some(listed)))
        }
        Spot::ClosingIndentation(closer) => {
            format!("the indentation of a closing line{}", within(pointed, Some(closer)))
        }
        Spot::LostBreak(_, after) => format!("a line break that is left out{}", within(pointed, after.as_ref())),
        Spot::End(_) => "the end of the script".to_string(),
        Spot::Between(..) | Spot::Unread(..) => format!("{} that no token has", pointed.sign()),
    }
}

/// In which text a token is that is no literal, in words.
fn within(pointed: &Pointed, listed: Option<&Listed>) -> String {
    let text = listed.map(|listed| match listed.frame {
        Frame::Initial => String::new(),
        Frame::Scripting | Frame::DoubleQuote => " in a string with an interpolation".to_string(),
        Frame::ShellExec => " in a command".to_string(),
        Frame::LookingForVarname | Frame::LookingForProperty | Frame::VarOffset => " in an interpolation".to_string(),
        frame => pointed.text_block(frame).map_or_else(String::new, |block| format!(" in the {}", block)),
    });
    text.unwrap_or_default()
}

/// What to do: the nearest literals or comments before and after the place are named.
fn advice(pointed: &Pointed) -> String {
    let is_before = |span: &Span| span.position < pointed.span.position;
    let places = pointed.literals();
    let before = places.iter().rev().find(|span| is_before(span)).map(|span| format!("{} before it", span));
    let after = places.iter().find(|span| !is_before(span)).map(|span| format!("{} after it", span));
    let nearest: Vec<String> = [before, after].into_iter().flatten().collect();
    if !nearest.is_empty() {
        return format!("name a place in one, as {}", nearest.join(" or "));
    }
    let other = match is_in_text(pointed) {
        true => "take it by hand: puretakoi at tells where its parts end",
        false => "name another script",
    };
    format!("none is read in the script, so {}", other)
}

/// Whether the place is in a text of several tokens: a string with an interpolation, a command or a text block. Of a
/// byte that no token has this is known in a string alone, whose first token begins at its quote.
fn is_in_text(pointed: &Pointed) -> bool {
    match &pointed.spot {
        Spot::Between(_, after) => after.as_ref().map_or(false, |after| after.frame == Frame::DoubleQuote),
        spot => !within(pointed, spot.token().or_else(|| spot.after())).is_empty(),
    }
}
