//! Octal escapes over 255 as the manual has them (document 02, P5): one overflows into the byte of its low eight bits.
//! 400 in octal is 256, so `\400` to `\777` stand for the bytes of `\000` to `\377`, which are as long: where the first
//! digit is lower by 4, the Rust itself reads the text so, and to the same place.

use cases::{Answer, Case, Routine};

/// How much lower the first digit is.
const OVER: u8 = 4;

/// Whether a routine of the Rust has octal escapes.
pub fn has_octals(routine: Routine) -> bool {
    matches!(routine, Routine::Double | Routine::DoubleQuote | Routine::Heredoc)
}

/// Runs the case's routine, which has octal escapes, on the Rust as the manual has them. The case stays as it is.
pub fn run_as_manual(case: &mut Case, answer: &mut Answer) {
    let digits = overflowing(&case.source, case.position);
    digits.iter().for_each(|place| case.source[*place] -= OVER);
    oracle::run(case, answer);
    digits.iter().for_each(|place| case.source[*place] += OVER);
}

/// A text in which no octal escape overflows, and each stands for the byte that the manual gives it.
pub fn lowered(text: &[u8]) -> Vec<u8> {
    let mut lowered = text.to_vec();
    overflowing(text, 0).iter().for_each(|place| lowered[*place] -= OVER);
    lowered
}

/// Where the octal escapes over 255 have their first digit, in a text from a place on. Of two backslashes the second
/// begins none.
fn overflowing(source: &[u8], from: usize) -> Vec<usize> {
    let mut places = Vec::new();
    let mut at = from;
    while at < source.len() {
        at += match &source[at..] {
            [b'\\', b'\\', ..] => 2,
            [b'\\', b'4'..=b'7', b'0'..=b'7', b'0'..=b'7', ..] => {
                places.push(at + 1);
                4
            }
            _ => 1,
        };
    }
    places
}
