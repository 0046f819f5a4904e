//! Prints short cases over all routines, the same ones for the same seed: `random_cases COUNT [SEED]`.

use std::io::{self, BufWriter, Write};

use cases::case::{Case, ROUTINES};
use cases::random::Random;

/// Pieces of text at which the routines decide something.
const PIECES: [&[u8]; 52] = [
    b"a", b"x", b"E", b"_", b"\x80", b"\xff", b"0", b"1", b"7", b"9", b"0x", b"0b", b"0o", b".", b"e", b"+", b"-",
    b"$", b"{", b"}", b"[", b"${", b"{$", b"$a", b"$x", b"->", b"?->", b"?", b"`", b"'", b"\"", b"\\", b"\\n", b"\\x4",
    b"\\u{", b"\\u{41}", b"\\40", b"\\377", b"\n", b"\nE", b"\n  E", b" ", b"\t", b"\r", b"<?", b"<?php", b"<?=", b";",
    b"\n \tE", b"$a->x", b"$a?->x", b"$a[",
];

/// Labels of text blocks.
const LABELS: [&[u8]; 3] = [b"E", b"x", b"EOT"];

const MOST_PIECES: usize = 8;

fn main() -> io::Result<()> {
    let mut words = std::env::args().skip(1).map(|word| word.parse::<u64>().expect("COUNT and SEED are numbers"));
    let count = words.next().expect("random_cases COUNT [SEED]");
    let mut random = Random::new(words.next().unwrap_or(1));
    let mut output = BufWriter::new(io::stdout().lock());
    let (mut case, mut line) = (Case::default(), Vec::new());
    for _ in 0..count {
        fill(&mut case, &mut random);
        line.clear();
        case.write(&mut line);
        line.push(b'\n');
        output.write_all(&line)?;
    }
    output.flush()
}

/// Replaces the case by another; two in three start at the source's start. Any routine but the last, `scripting`, which is asked
/// only where a comment begins.
fn fill(case: &mut Case, random: &mut Random) {
    case.routine = ROUTINES[random.below(ROUTINES.len() - 1)].1;
    case.source.clear();
    for _ in 0..random.below(MOST_PIECES + 1) {
        case.source.extend_from_slice(random.pick(&PIECES));
    }
    let length = case.source.len();
    case.position = if random.below(3) == 0 { random.below(length + 1) } else { 0 };
    case.count = random.below(length - case.position + 1);
    case.label.clear();
    case.label.extend_from_slice(random.pick(&LABELS));
}
