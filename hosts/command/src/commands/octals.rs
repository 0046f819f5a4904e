//! What a call chooses for octal escapes over 377, and the names of that.

use puretakoi::Octal;

use crate::commands::arguments::Call;
use crate::commands::options::OCTAL;

/// The octals that a call names; else those of its verb.
pub fn octals(call: &Call, of_verb: Octal) -> Octal {
    let all = [Octal::Rust, Octal::Manual];
    let named = call.word(&OCTAL).and_then(|word| all.into_iter().find(|octals| octal_name(*octals) == word));
    named.unwrap_or(of_verb)
}

/// Their name, as `--octal` takes it.
pub fn octal_name(octals: Octal) -> &'static str {
    match octals {
        Octal::Rust => "rust",
        Octal::Manual => "manual",
    }
}
