//! What a byte counts as (document 02, P6): digits and names by the manual's patterns, blanks and signs by
//! document 01.

use cases::classes::{BLANK, DIGIT, HEX, IDENTIFIER, LETTER, OCTAL, SIGN, START};
use cases::Change;

use crate::table::{scripting, Row, NO_LABEL};

/// Each flag with its pattern, as first and last bytes.
const PATTERNS: [(u32, &[(u8, u8)]); 7] = [
    (BLANK, &[(b' ', b' '), (b'\t', b'\t')]),
    (OCTAL, &[(b'0', b'7')]),
    (DIGIT, &[(b'0', b'9')]),
    (HEX, &[(b'0', b'9'), (b'A', b'F'), (b'a', b'f')]),
    (LETTER, &[(b'a', b'z'), (b'A', b'Z')]),
    (START, &[(b'a', b'z'), (b'A', b'Z'), (b'_', b'_'), (0x80, 0xff)]),
    (IDENTIFIER, &[(b'a', b'z'), (b'A', b'Z'), (b'0', b'9'), (b'_', b'_'), (0x80, 0xff)]),
];

/// What a sign of Scripting's table may stand before so that its row is met: nothing, `.0`, `?>`, `//`, `/*`, `<<<E`.
const AFTER: [&[u8]; 6] = [b"", b"0", b">", b"/", b"*", b"<<E\n"];

/// All that the byte counts as, flags added up.
pub fn classes_of(byte: u8) -> u32 {
    let has = |ranges: &[(u8, u8)]| ranges.iter().any(|(first, last)| (*first..=*last).contains(&byte));
    let flags: u32 = PATTERNS.iter().filter(|(_, ranges)| has(ranges)).map(|(flag, _)| flag).sum();
    let is_sign = flags & IDENTIFIER == 0 && AFTER.iter().any(|after| !is_passed_alone(byte, after));
    flags + if is_sign { SIGN } else { 0 }
}

/// Whether the byte before this text is one of the table's last row.
fn is_passed_alone(byte: u8, after: &[u8]) -> bool {
    let row = scripting(&[&[byte], after].concat(), 2);
    row == Row::Pass { count: 1, change: Change::Keep, label: NO_LABEL }
}
