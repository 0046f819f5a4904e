//! Every short text over pieces at which the routine decides something, as a whole and as a part, in every frame and reading.

use cases::call::{CHOICES, RECORD};
use cases::pieces::{every_text, Pieces};
use cases::random::Random;
use cases::Function;

use crate::hold::Held;
use crate::limits::{standing, top};

/// What is tried everywhere.
const BYTES: &[u8] = b"<?phP=a1E_$[]{}->'\"`\\\n\r \t.e+x0u/*#\x80";

/// The text stands after this, which has the label of text blocks.
const BEFORE: &[u8] = b"E\n";

/// A function with a frame on top and choices, and the pieces of longer texts.
const ROUTINES: [(Function, u32, u32, Pieces); 22] = [
    (Function::Step, 0, 0, &[b"<", b"?", b"p", b"H", b"php", b"=", b"a", b"\n"]),
    (Function::Step, 1, 0, &[b"<", b"<<<", b"'", b"E", b"7", b"\n", b"\r", b"\""]),
    (Function::Step, 1, 0, &[b"/", b"*", b"#", b"?", b">", b"[", b"\n", b"\r"]),
    (Function::Step, 2, 0, &[b"$", b"a", b"-", b">", b"?", b"[", b"{", b"\""]),
    (Function::Step, 3, 0, &[b"$", b"a", b"-", b">", b"?", b"\\", b"{", b"`"]),
    (Function::Step, 4, 0, &[b"\n", b"E", b" ", b"\t", b"$a", b"\\", b"{", b"\r"]),
    (Function::Step, 5, 0, &[b"\n", b"E", b" ", b"\t", b"a", b"\\", b"$a", b"\r"]),
    (Function::Step, 5, 1, &[b"\n", b"E", b" ", b"\t", b"a", b"\r", b"\r\n", b"  "]),
    (Function::Step, 6, 0, &[b"a", b"1", b"[", b"}", b"_", b"$", b"]", b" "]),
    (Function::Step, 7, 0, &[b"-", b">", b"?", b"a", b"1", b"->", b"?->", b" "]),
    (Function::Step, 8, 0, &[b"]", b"[", b"a", b"1", b"$", b"\n", b"'", b" "]),
    (Function::ReadNumber, 1, 0, &[b"0", b"1", b"_", b".", b"e", b"E", b"+", b"x"]),
    (Function::ReadSingle, 1, 0, &[b"'", b"\\", b"a", b"\n", b"\"", b"n", b"\r", b"$a"]),
    (Function::ReadDouble, 1, 0, &[b"\"", b"\\", b"\\u{", b"4", b"}", b"$", b"{", b"a"]),
    (Function::ReadDouble, 1, 0, &[b"\"", b"\\", b"\\4", b"\\70", b"1", b"0", b"8", b"$a"]),
    (Function::ReadDouble, 1, 2, &[b"\"", b"\\", b"\\4", b"\\70", b"1", b"0", b"8", b"$a"]),
    (Function::Step, 1, 0, &[b"\"", b"\"\\", b"\"\\4", b"\"\\70", b"1", b"0", b"\\412", b"$a"]),
    (Function::Step, 1, 3, &[b"\"", b"\"\\", b"\"\\4", b"\"\\70", b"1", b"0", b"\\412", b"$a"]),
    (Function::Step, 2, 1, &[b"\"", b"\\", b"\\4", b"\\70", b"1", b"0", b"{", b"$a"]),
    (Function::Step, 2, 2, &[b"\"", b"\\", b"\\4", b"\\70", b"1", b"0", b"{", b"$a"]),
    (Function::Step, 4, 0, &[b"\n", b"E", b"\\4", b"\\41", b"2", b"0", b"{", b"$a"]),
    (Function::Step, 4, 3, &[b"\n", b"E", b"\\4", b"\\41", b"2", b"0", b"{", b"$a"]),
];

/// Texts of up to `most` bytes, and of two pieces more.
pub fn short_texts(held: &mut Held, most: usize, _random: &mut Random) -> Result<(), String> {
    for (function, frame, choices, pieces) in ROUTINES {
        let mut hold = |text: &[u8]| {
            let source = [BEFORE, text].concat();
            let mut call = standing(function, &source, BEFORE.len(), 2, top(frame, 1));
            call.session[CHOICES] = choices;
            call.list = 2 * RECORD;
            call.pool = source.len();
            held.hold(&call)?;
            call.end = 1;
            held.hold(&call)
        };
        every_text(BYTES, most, |text| hold(text).map(drop))?;
        let places: Vec<u8> = (0..pieces.len() as u8).collect();
        every_text(&places, most + 2, |picks| {
            let text: Vec<u8> = picks.iter().flat_map(|pick| pieces[usize::from(*pick)].to_vec()).collect();
            hold(&text).map(drop)
        })?;
    }
    Ok(())
}
