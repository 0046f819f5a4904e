//! Random texts: fragments, octal escapes, and scripts with quoted texts, text blocks and sheets in them.

use cases::pieces::{self, Pieces, CLOSING_LINES, ESCAPES, INTERPOLATIONS, LINES, OCTALS, SCRIPT};
use cases::random::Random;

const LISTS: [Pieces; 6] = [SCRIPT, ESCAPES, INTERPOLATIONS, LINES, CLOSING_LINES, OCTALS];

const MOST_PIECES: usize = 8;
const MOST_ROWS: usize = 5;

/// One fragment in so many is long.
const LONG_OF: usize = 200;

/// What opens a text, and what closes it.
const TEXTS: [(&[u8], &[u8]); 7] = [
    (b"'", b"'"),
    (b"\"", b"\""),
    (b"\"$a", b"\""),
    (b"`", b"`"),
    (b"<<<E\n", b"\nE"),
    (b"<<<'Ea'\r\n", b"\n  Ea"),
    (b"<<<EOT\n", b"\n\tEOT"),
];

/// Up to 8 pieces, of one list or of all; rarely very many.
pub fn fragment(random: &mut Random) -> Vec<u8> {
    if random.below(8) == 0 {
        return rows(b"E", random);
    }
    let list = LISTS[random.below(LISTS.len())];
    let is_mixed = random.below(3) == 0;
    let most = if random.below(LONG_OF) == 0 { 400 } else { MOST_PIECES };
    let count = random.below(most + 1);
    let mut text = Vec::new();
    for _ in 0..count {
        let list = if is_mixed { LISTS[random.below(LISTS.len())] } else { list };
        text.extend_from_slice(random.pick(list));
    }
    text
}

/// Octal escapes, of which most are over 255, with pieces of any list between them.
pub fn octal_text(random: &mut Random) -> Vec<u8> {
    let mut text = Vec::new();
    for _ in 0..1 + random.below(MOST_PIECES / 2) {
        match random.below(4) {
            0 => text.extend_from_slice(random.pick(ESCAPES)),
            1 => text.extend_from_slice(format!("\\{:o}", random.below(512)).as_bytes()),
            _ => text.extend_from_slice(random.pick(OCTALS)),
        }
    }
    text
}

/// A script: pieces alone, or with a text, octal escapes or a sheet.
pub fn script(random: &mut Random) -> Vec<u8> {
    match random.below(8) {
        0 | 1 => [b"<?php ".to_vec(), sheet(random), pieces::script(random)].concat(),
        2 | 3 => {
            let (open, close) = TEXTS[random.below(TEXTS.len())];
            let inside = if random.below(2) == 0 { octal_text(random) } else { fragment(random) };
            [b"<?php ", open, &inside, close, &fragment(random)].concat()
        }
        _ => pieces::script(random),
    }
}

/// A nowdoc block.
fn sheet(random: &mut Random) -> Vec<u8> {
    let label = random.pick(&[&b"E"[..], b"EOT", b"_\x80"]);
    let behind = random.pick(&[&b";"[..], b";", b"\n", b"", b"a", b"0", b"\x80;"]);
    [b"<<<'", label, b"'\n", &rows(label, random), behind].concat()
}

/// Rows of relief and a closing line: mostly indented alike, with any break.
fn rows(label: &[u8], random: &mut Random) -> Vec<u8> {
    let blank = random.pick(&[&b" "[..], b"\t"]);
    let width = random.below(4);
    let mut text = Vec::new();
    for _ in 0..random.below(MOST_ROWS) {
        let own = match random.below(12) {
            0 => random.below(4),
            1 => width + 1,
            _ => width,
        };
        (0..own).for_each(|_| text.extend_from_slice(blank));
        text.extend_from_slice(random.pick(&[
            &b"ab"[..],
            b"",
            b"  c",
            b"\td",
            b"\r",
            b"E",
            b"$a",
            b"EOTstrasse",
            b"E7",
        ]));
        text.extend_from_slice(random.pick(&[&b"\n"[..], b"\n", b"\r\n"]));
    }
    (0..width).for_each(|_| text.extend_from_slice(blank));
    if random.below(10) == 0 {
        text.extend_from_slice(random.pick(&[&b" "[..], b"\t"]));
    }
    text.extend_from_slice(label);
    text
}
