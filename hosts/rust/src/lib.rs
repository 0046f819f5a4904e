//! Puretakoi for hosts in Rust on x86-64 Linux: the proved reader of PHP scripts behind calls that can't be misused.
//!
//! `tokens` gives the tokens of a whole script, `Tokens` one after another and by choices; `TokenList` keeps them, and
//! tells which one is under a byte and where it ends; `Stream` reads a script that comes in parts; `Session` is the
//! library's own walk and step, with lent tables, and `find` looks up a byte in such a list; `classes_of` tells what a
//! byte counts as. What can't be taken is refused by its number, and session and tables are then as they were; what the
//! steps of a walk before it wrote stays. No call panics, but where PURETAKOI_ARCHIVE named a library older than this
//! crate, which does not know all choices of a fresh session.
//!
//! ```
//! use puretakoi::{tokens, Kind, Reading, Reason, Tokens};
//!
//! for token in tokens(b"<?php 'kerb';")? {
//!     println!("{} {}: {:?}", token.span, token.kind_name(), token.value);
//! }
//!
//! let script = b"<?php <<<'RELIEF'\n  ..##\n  RELIEF;";
//! let mut rows = Vec::new();
//! for token in Tokens::new(script, Reading::Sheet) {
//!     let token = token?;
//!     if token.kind() == Some(Kind::StringPart) {
//!         rows.push(token.value);
//!     }
//! }
//! assert_eq!(rows, [b"..##"]);
//!
//! let refusal = tokens(b"<?php 'kerb").unwrap_err();
//! assert_eq!(refusal.reason(), Some(Reason::UnexpectedEndOfFile));
//! assert_eq!(refusal.to_string(), "refused 1 at 1:12: something is still open where the script ends");
//! # Ok::<(), puretakoi::Refusal>(())
//! ```
//!
//! Which token is under the finger? Here the finger is on byte 9, in the string; then on byte 13, which no token has.
//!
//! ```
//! use puretakoi::{Reading, TokenList};
//!
//! let tokens = TokenList::new(b"<?php 'kerb' . 12;", Reading::Sheet);
//! let under = tokens.at(9).expect("a script has a token at its start");
//! assert_eq!((under.listed.number, &under.listed.token.value[..]), (1, &b"kerb"[..]));
//! assert_eq!(under.listed.passed, 6..12);
//!
//! let under = tokens.at(13).expect("the last token before it");
//! assert_eq!((under.listed.number, under.listed.passed.contains(&13)), (1, false));
//! assert_eq!(tokens.end(), Ok(18));
//! ```
//!
//! A literal or a comment goes from its place up to its end, both quotes with it, and so can be cut out of the script.
//! The finger is on byte 7; byte 13 is past the end of the token before it.
//!
//! ```
//! use puretakoi::{Reading, TokenList};
//!
//! let script = b"<?php 'it\\'s' . 12;";
//! let tokens = TokenList::new(script, Reading::Sheet);
//! let literal = tokens.at(7).expect("a token is under byte 7").listed;
//! let bytes = literal.written(script).expect("it is a literal");
//! assert_eq!((&script[bytes.clone()], &literal.token.value[..]), (&b"'it\\'s'"[..], &b"it's"[..]));
//! assert_eq!((literal.token.end, bytes.contains(&7), bytes.contains(&13)), (Some(13), true, false));
//! ```
//!
//! A legend with an octal escape over 377: the Rust refuses it, the PHP manual has a byte for it. The session's choice
//! decides, and a host may change it between steps, with `Session::set_choices`.
//!
//! ```
//! use puretakoi::{Octal, Reason, Tokens};
//!
//! let script = b"<?php \"kerb \\501\";";
//! let last = |octals| Tokens::new(script, octals).last().expect("a script has a token");
//! let refusal = last(Octal::Rust).unwrap_err();
//! assert_eq!((refusal.reason(), refusal.octal_byte(script)), (Some(Reason::InvalidOctalEscape), Some(b'A')));
//! assert_eq!(last(Octal::Manual)?.value, b"kerb A");
//! # Ok::<(), puretakoi::Refusal>(())
//! ```

#![deny(unsafe_code, missing_docs, missing_debug_implementations)]

mod byte;
mod choices;
mod file;
mod find;
#[allow(unsafe_code)]
mod foreign;
mod frame;
mod numbers;
mod record;
mod refusal;
mod session;
mod stream;
mod token_list;
mod tokens;

#[cfg(test)]
mod header;
#[cfg(test)]
mod words;

pub use byte::{classes_of, Classes};
pub use choices::{Choices, Octal, Reading};
pub use file::{file_to_list, list_to_file};
pub use find::{find, Found};
pub use frame::{Frame, Label};
pub use numbers::{classes, kinds, limits, refusals, Class, Kind, Reason};
pub use record::{records, Record};
pub use refusal::{Refusal, Span};
pub use session::{End, Progress, Session, Walk};
pub use stream::{Event, Stream, Token};
pub use token_list::{Listed, TokenList, Under};
pub use tokens::{tokens, Tokens};

use std::ops::Range;

/// Where the identifier at a place of the source stands, if there is one.
pub fn peek_identifier(src: &[u8], at: usize) -> Option<Range<usize>> {
    match foreign::peek_identifier(src, at) {
        0 => None,
        length => Some(at..at + length),
    }
}
