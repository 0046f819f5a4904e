//! Pieces of texts, labels and scripts, at which the readings and steps decide something.

use crate::random::Random;

pub type Pieces = &'static [&'static [u8]];

/// What pairs of bytes are tried after: nothing, a backslash, a variable.
pub const PREFIXES: Pieces = &[b"", b"\\", b"$a"];

/// In a block also a break, and a break and a blank.
pub const BLOCK_PREFIXES: Pieces = &[b"", b"\\", b"$a", b"\n", b"\n "];

/// What settles `$a?`.
pub const PROPERTY: Pieces = &[b"->a"];

/// The label of a routine without.
pub const NO_LABEL: Pieces = &[b""];

/// Labels of blocks for short texts.
pub const SHORT_LABELS: Pieces = &[b"E", b"Ea"];

/// Pieces with escapes that the text outlives.
pub const ESCAPES: Pieces = &[
    b"a",
    b"b c",
    b"\x80",
    b"\xff\xfe",
    b"7",
    b"_",
    b"}",
    b"\n",
    b"\r\n",
    b"\t",
    b" ",
    b"\\",
    b"\\\\",
    b"\\\"",
    b"\\$",
    b"\\n",
    b"\\r",
    b"\\t",
    b"\\v",
    b"\\e",
    b"\\f",
    b"\\x",
    b"\\x4",
    b"\\x41",
    b"\\xfF",
    b"\\X41",
    b"\\0",
    b"\\12",
    b"\\12n",
    b"\\377",
    b"\\3777",
    b"\\8",
    b"\\u",
    b"\\u{41}",
    b"\\u{a}",
    b"\\u{20AC}",
    b"\\u{10ffff}",
    b"\\u{000000000000041}",
    b"\\u{7ff}",
    b"\\u{800}",
    b"\\u{ffff}",
    b"\\u{10000}",
    b"$",
    b"$$",
    b"$1",
    b"{",
    b"{ $",
    b"-",
    b"->",
    b"?",
    b"?->",
    b"[",
    b"]",
    b"'",
];

/// Pieces that end a text with interpolations, or refuse it.
pub const INTERPOLATIONS: Pieces = &[
    b"${",
    b"{$",
    b"$a",
    b"$a[",
    b"$a->b",
    b"$a->",
    b"$a->1",
    b"$a?->b",
    b"$a?->",
    b"$a?-",
    b"$a?",
    b"$a-",
    b"$_9\x80;",
    b"$\xff->\xff",
    b"$a?->\x80",
    b"\\400",
    b"\\777",
    b"\\u{d800}",
    b"\\u{dfff}",
    b"\\u{110000}",
    b"\\u{}",
    b"\\u{",
    b"\\u{41",
    b"\\u{g}",
    b"\\u{fffffffff}",
    b"\\u{100000041}",
    b"\"",
    b"`",
    b"'",
    b"\n",
];

/// Octal escapes over 255: those of a quote, `$`, `{`, a backslash and LF, which begin nothing; before what may begin
/// something; with a fourth digit; cut after one digit and after two; and some that are none.
pub const OCTALS: Pieces = &[
    b"\\400",
    b"\\777",
    b"\\442",
    b"\\444",
    b"\\444a",
    b"\\573",
    b"\\573$a",
    b"\\534",
    b"\\534n",
    b"\\540",
    b"\\412",
    b"\\412$a",
    b"\\412{$a",
    b"\\412${",
    b"\\412\nE",
    b"\\415\n",
    b"\\501",
    b"\\4000",
    b"\\7777",
    b"\\600\\477",
    b"\\4",
    b"\\7",
    b"\\40",
    b"\\77",
    b"\\40$a",
    b"\\40\\400",
    b"\\408",
    b"\\48",
    b"\\377",
    b"\\\\400",
    b"\\x400",
    b"0",
    b"7",
    b"a",
    b"$a",
    b"\n",
];

/// Pieces of blocks: lines that almost close, and those that do, for the labels `E`, `Ea` and `EOT`.
pub const LINES: Pieces = &[
    b"a", b"\n", b"\n\n", b"\r\n", b"\n ", b"\n\t", b"\n \t", b"\n\t ", b"\n  ", b"\ne", b"\n e", b"E", b"\nO", b" ",
    b"\t", b"\nF", b"\n\r", b"\x80", b"_", b"7", b"$", b"\\", b"\n\\",
];

pub const CLOSING_LINES: Pieces = &[
    b"\nE",
    b"\n E",
    b"\n\tE",
    b"\n \tE",
    b"\n\t E",
    b"\n   E",
    b"\n\t\tE",
    b"\nEO",
    b"\nEOT",
    b"\n  EOT;",
    b"\nEa",
    b"\n Ea",
    b"\n\nE",
    b"\r\nEOT\r\n",
    b"\nEOTX",
    b"\n \t \tEOT",
    b"\n\nEa",
    b"\\n\nE",
    b"\n\n\nEOT",
];

/// Pieces of script at which a step decides something.
pub const SCRIPT: Pieces = &[
    b"<?php ",
    b"<?",
    b"<?=",
    b"<?PhP",
    b"<?pHp",
    b"?>",
    b"?",
    b"'",
    b"\"",
    b"`",
    b"a",
    b"E",
    b"_",
    b"\x80",
    b"\xff",
    b"0",
    b"1",
    b"9",
    b"0x",
    b"1_0",
    b".",
    b".5",
    b"1e",
    b"+",
    b"-",
    b"$",
    b"{",
    b"}",
    b"[",
    b"]",
    b"${",
    b"${a}",
    b"{$",
    b"$a",
    b"$a[",
    b"$a->x",
    b"$a?->x",
    b"->",
    b">",
    b"\\",
    b"\\n",
    b"\\x4",
    b"\\u{41}",
    b"\\u{",
    b"\\400",
    b"<<<E\n",
    b"<<<'E'\n",
    b"<<<E\r\n",
    b"<<<'E\n",
    b"<<<",
    b"<",
    b"\n",
    b"\nE",
    b"\n  E",
    b"\n\tE",
    b"\n \tE",
    b"\r",
    b" ",
    b"\t",
    b";",
    b"=",
    b"p",
    b"\\'",
    b"//",
    b"/*",
    b"*/",
    b"/",
    b"*",
    b"#",
    b"#[",
    b"// it's ",
];

const MOST_PIECES: usize = 16;

/// A script of up to 16 pieces; four in five begin with a tag.
pub fn script(random: &mut Random) -> Vec<u8> {
    let mut script = if random.below(5) == 0 { Vec::new() } else { b"<?php ".to_vec() };
    for _ in 0..random.below(MOST_PIECES + 1) {
        script.extend_from_slice(random.pick(SCRIPT));
    }
    script
}

/// Calls `each` with every text of up to `most` bytes of the alphabet, shorter ones first.
pub fn every_text<E>(alphabet: &[u8], most: usize, mut each: impl FnMut(&[u8]) -> Result<(), E>) -> Result<(), E> {
    for length in 0..=most {
        let mut picks = vec![0; length];
        let mut text = vec![alphabet[0]; length];
        loop {
            each(&text)?;
            let last = match picks.iter().rposition(|pick| pick + 1 < alphabet.len()) {
                Some(last) => last,
                None => break,
            };
            picks[last] += 1;
            picks[last + 1..].iter_mut().for_each(|pick| *pick = 0);
            (last..length).for_each(|place| text[place] = alphabet[picks[place]]);
        }
    }
    Ok(())
}
