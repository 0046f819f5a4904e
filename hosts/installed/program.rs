//! Prints the tokens of the sheet on standard input, octal escapes as the manual has them, and its refusal in words,
//! by the crate that is named as a path.

use puretakoi::{Choices, Kind, Octal, Reading, Tokens};
use std::io::{self, Read};

fn main() -> io::Result<()> {
    let mut script = Vec::new();
    io::stdin().read_to_end(&mut script)?;
    let choices = Choices { octals: Octal::Manual, ..Choices::from(Reading::Sheet) };
    let mut refused = None;
    for token in Tokens::new(&script, choices) {
        match token {
            Ok(token) => {
                let (end, value) = (token.end.unwrap_or(0), String::from_utf8_lossy(&token.value));
                println!("{} {} {} {}", token.span, token.kind, end, value);
            }
            Err(refusal) => refused = Some(refusal),
        }
    }
    println!("{} is {}", Kind::Comment.number(), Kind::Comment.name());
    if let Some(refusal) = refused {
        println!("{} {}: {}. {}", refusal.span, refusal.name(), refusal.meaning(), refusal.advice());
    }
    Ok(())
}
