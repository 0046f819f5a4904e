//! What each byte counts as: the library's answer beside what is told, and beside the Rust's own routines where one of
//! them decides on such a byte.

use cases::classes::{BLANK, DIGIT, HEX, IDENTIFIER, OCTAL, START};
use cases::random::Random;
use cases::{Answer, Case, Routine};
use telling::classes::classes_of;

use crate::hold::Held;

/// A routine of the Rust on a text with the byte in it: the byte has the flag exactly where the last token has one of
/// these kinds and so many bytes.
struct Asked {
    flag: u32,
    routine: Routine,
    before: &'static [u8],
    after: &'static [u8],
    kinds: &'static [u32],
    length: usize,
}

/// Document 01's kinds: those of a closer behind spaces and behind tabs, an identifier, a string and an integer.
const INDENTED: &[u32] = &[12, 13];
const NAME: &[u32] = &[14];
const TEXT: &[u32] = &[18];
const INTEGER: &[u32] = &[19];

const RUST: [Asked; 8] = [
    asked(BLANK, Routine::Nowdoc, (b"\n", b"E"), INDENTED, 1),
    asked(OCTAL, Routine::Number, (b"0o", b""), INTEGER, 3),
    asked(OCTAL, Routine::Double, (b"\\1", b"a\""), TEXT, 2),
    asked(DIGIT, Routine::Number, (b"1", b""), INTEGER, 2),
    asked(HEX, Routine::Number, (b"0x", b""), INTEGER, 3),
    asked(HEX, Routine::Double, (b"\\x", b"\""), TEXT, 1),
    asked(START, Routine::PeekIdentifier, (b"", b""), NAME, 1),
    asked(IDENTIFIER, Routine::PeekIdentifier, (b"a", b""), NAME, 2),
];

const fn asked(
    flag: u32,
    routine: Routine,
    (before, after): (&'static [u8], &'static [u8]),
    kinds: &'static [u32],
    length: usize,
) -> Asked {
    Asked { flag, routine, before, after, kinds, length }
}

/// All 256 bytes.
pub fn every_byte(held: &mut Held, _: usize, _: &mut Random) -> Result<(), String> {
    for byte in 0..=u8::MAX {
        held.made();
        let (told, given) = (classes_of(byte), host::classes_of(byte));
        let apart: Vec<String> = RUST.iter().filter_map(|asked| beside_the_rust(asked, byte, given)).collect();
        if told != given || !apart.is_empty() {
            return Err(format!("  classes_of {:02x}\n  told  {}\n  given {}{}", byte, told, given, apart.concat()));
        }
    }
    Ok(())
}

/// What the Rust makes of the byte, where it is another thing than is given.
fn beside_the_rust(asked: &Asked, byte: u8, given: u32) -> Option<String> {
    let source = [asked.before, &[byte], asked.after].concat();
    let case = Case { routine: asked.routine, label: b"E".to_vec(), source, ..Case::default() };
    let mut answer = Answer::default();
    oracle::run(&case, &mut answer);
    let is_last = |token: &cases::Token| asked.kinds.contains(&token.kind) && token.value.len() == asked.length;
    let has_flag = answer.tokens.last().map_or(false, is_last);
    let says = if has_flag { "has" } else { "has not" };
    (has_flag != (given & asked.flag != 0))
        .then(|| format!("\n  the Rust's {} {} flag {}", asked.routine.name(), says, asked.flag))
}
