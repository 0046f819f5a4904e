//! What is lent to a call, and what must stay where it is refused; all choices.

#![allow(dead_code)]

use puretakoi::{Choices, Octal, Reading, Session};

/// All choices, each where its number is the place.
pub const CHOICES: [Choices; 4] = [
    Choices { nowdocs: Reading::Ported, octals: Octal::Rust },
    Choices { nowdocs: Reading::Sheet, octals: Octal::Rust },
    Choices { nowdocs: Reading::Ported, octals: Octal::Manual },
    Choices { nowdocs: Reading::Sheet, octals: Octal::Manual },
];

#[derive(Clone, Debug, PartialEq)]
pub struct Lent {
    pub session: Session,
    pub list: Vec<u32>,
    pub pool: Vec<u8>,
}
