//! Questions that can't be taken, each with the refusal that document 01 gives them, worked by hand.

use crate::library::{self, Probed, Question};

/// A name, the mode, the lengths of source and label, the position, the refusal.
const CALLS: [(&str, u32, usize, usize, usize, u32); 16] = [
    ("a whole script", 0, 65_536, 0, 0, 1),
    ("a script too long by one", 0, 65_537, 0, 0, 11),
    ("a script too long, and nothing else right", 9, 65_537, 65, 70_000, 11),
    ("the last mode of the Rust", 5, 1, 64, 0, 1),
    ("the first mode with the manual's octal escapes", 6, 1, 64, 0, 1),
    ("the last mode", 8, 1, 64, 0, 1),
    ("a mode too large by one", 9, 1, 1, 0, 10),
    ("a mode too large by eight", 16, 1, 1, 0, 10),
    ("the largest mode", u32::MAX, 1, 1, 0, 10),
    ("a position at the end", 1, 5, 0, 5, 1),
    ("a position past the end", 1, 5, 0, 6, 10),
    ("the largest position", 1, 5, 0, usize::MAX, 10),
    ("a position in an empty script", 2, 0, 0, 0, 1),
    ("a label of 64 bytes", 4, 1, 64, 0, 1),
    ("a label too long by one", 4, 1, 65, 0, 10),
    ("a label too long that is not looked at", 0, 1, 65, 0, 10),
];

/// How many calls were as they must be, or what went wrong. A refused call leaves the part for the value as it was.
pub fn all_given() -> Result<u64, String> {
    for (name, mode, source, label, at, expected) in CALLS {
        let (source, label) = (vec![b'a'; source], vec![b'E'; label]);
        for end in [1, 2, u32::MAX] {
            let question = Question { mode, source: &source, label: &label, at, end };
            let probed = library::text(question);
            let place = if expected == 1 { source.len() } else { 0 };
            let refused = Probed { number: expected, stop: 0, place, detail: 0, from: 0, after: 0, len: 0 };
            let mut part = [7; 4];
            let number = library::value(question, &mut part);
            if probed != refused || number != expected || part != [7; 4] {
                return Err(format!("  {}: expected {}, got {:?}, then {}", name, expected, probed, number));
            }
        }
    }
    Ok(CALLS.len() as u64 * 3)
}
