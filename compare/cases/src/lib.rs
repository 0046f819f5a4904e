//! The text form of cases and answers, of calls and what they give, and the files that hold them. Nothing here knows the lexer.

pub mod answer;
pub mod call;
pub mod case;
pub mod classes;
pub mod file;
pub mod found;
pub mod given;
pub mod hex;
pub mod lookup;
pub mod php;
pub mod pieces;
pub mod random;

pub use answer::{Answer, Change, Frame, Outcome, Span, Token};
pub use call::{Call, Function};
pub use case::{Case, Routine};
pub use found::{Found, Seen};
pub use given::{Given, Told};
pub use lookup::Lookup;
