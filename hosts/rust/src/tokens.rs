//! The tokens of a whole script, one after another.

use std::iter::FusedIterator;
use std::vec;

use crate::choices::{Choices, Reading};
use crate::refusal::Refusal;
use crate::stream::{Event, Stream, Token};

/// All tokens of a whole script in the ported reading, as the program `rows` reads it; else its refusal. With `Tokens`
/// choices are made, and the tokens before a refusal are given.
pub fn tokens(script: &[u8]) -> Result<Vec<Token>, Refusal> {
    Tokens::new(script, Reading::Ported).collect()
}

/// Gives the tokens of a whole script in their order. A refusal is the last item.
#[derive(Debug)]
pub struct Tokens {
    stream: Stream,
    read: vec::IntoIter<Token>,
    is_over: bool,
}

impl Tokens {
    /// The tokens of a script by these choices.
    pub fn new(script: &[u8], choices: impl Into<Choices>) -> Tokens {
        Tokens { stream: Stream::whole(script, choices.into()), read: Vec::new().into_iter(), is_over: false }
    }
}

impl Iterator for Tokens {
    type Item = Result<Token, Refusal>;

    fn next(&mut self) -> Option<Self::Item> {
        loop {
            if let Some(token) = self.read.next() {
                return Some(Ok(token));
            }
            if self.is_over {
                return None;
            }
            match self.stream.next() {
                Event::Tokens(tokens) => self.read = tokens.into_iter(),
                // A whole script does not wait.
                Event::Finished(_) | Event::Wait => self.is_over = true,
                Event::Refused(refusal) => {
                    self.is_over = true;
                    return Some(Err(refusal));
                }
            }
        }
    }
}

impl FusedIterator for Tokens {}
