//! Writes the stored answers, a file a routine, into a folder: `make_answers FOLDER`.

use std::io;
use std::path::Path;

use cases::random::Random;
use cases::{Case, Routine};

/// Bytes of runs: the ends of each range of identifier bytes, and the bytes beside them.
const RUN_BYTES: &[u8] = b"azAZ__09bq57\x80\xff\xc3\xa9";
const STOP_BYTES: &[u8] = b"\n /:@[^`{\x7f\x00-$";

/// Bytes of sources for `skip`: line breaks of all kinds, tabs and others.
const SKIP_BYTES: &[u8] = b"\n\n\n\r\r\t a\x00\x0b\x0c\x7f\x80\x85\xff";

/// The second line of each file.
const ORIGIN: &str =
    "# CASE => ANSWER as in compare/README.md, written by compare/oracle/make-answers from fixed seeds.";

/// One source in this many is long.
const LONG_ONES: usize = 8;

fn main() -> io::Result<()> {
    let folder = std::env::args().nth(1).expect("make_answers FOLDER");
    oracle::quiet_panics();
    write_file(
        Path::new(&folder),
        Routine::PeekIdentifier,
        &peek_cases(),
        "every byte alone and beside a letter; runs",
    )?;
    write_file(Path::new(&folder), Routine::Skip, &skip_cases(), "every byte between letters; line breaks of all kinds")
}

fn write_file(folder: &Path, routine: Routine, cases: &[Case], what: &str) -> io::Result<()> {
    let mut text = format!("# What the Rust answers for `{}`: {}.\n{}\n", routine.name(), what, ORIGIN).into_bytes();
    let mut answer = cases::Answer::default();
    for (index, case) in cases.iter().enumerate() {
        if cases[..index].contains(case) {
            continue;
        }
        oracle::run(case, &mut answer);
        case.write(&mut text);
        text.extend_from_slice(b" => ");
        answer.write(&mut text);
        text.push(b'\n');
    }
    std::fs::write(folder.join(routine.name()).with_extension("txt"), text)
}

fn peek_cases() -> Vec<Case> {
    let mut cases = Vec::new();
    for byte in 0..=255 {
        cases.push(peek(0, &[byte]));
        cases.push(peek(0, &[byte, b'a']));
        cases.push(peek(0, &[b'a', byte]));
        cases.push(peek(1, &[b'a', byte]));
    }
    for position in 0..3 {
        cases.push(peek(position, b""));
        cases.push(peek(position + 1, b"a"));
        cases.push(peek(position + 2, b"a\n"));
    }
    let mut random = Random::new(1);
    for number in 0..220 {
        let source = run_source(&mut random, number);
        cases.push(peek(random.below(source.len() + 3), &source));
        cases.push(peek(0, &source));
    }
    cases
}

/// Runs of identifier bytes with a byte between that stops them.
fn run_source(random: &mut Random, number: usize) -> Vec<u8> {
    let mut source = Vec::new();
    let most = if number % LONG_ONES == 0 { 300 } else { 12 };
    for _ in 0..1 + random.below(3) {
        extend(&mut source, RUN_BYTES, random.below(most), random);
        extend(&mut source, STOP_BYTES, random.below(2), random);
    }
    source
}

fn skip_cases() -> Vec<Case> {
    let mut cases = Vec::new();
    for byte in 0..=255 {
        cases.push(skip(1, 1, &[b'a', byte, b'b']));
    }
    let mut random = Random::new(2);
    for number in 0..80 {
        let mut source = Vec::new();
        let most = if number % LONG_ONES == 0 { 300 } else { 30 };
        extend(&mut source, SKIP_BYTES, random.below(most), &mut random);
        let length = source.len();
        let from = random.below(length + 1);
        cases.push(skip(0, 0, &source));
        cases.push(skip(0, length, &source));
        cases.push(skip(length, 0, &source));
        cases.push(skip(from, length - from, &source));
        cases.push(skip(from, random.below(length - from + 1), &source));
    }
    cases
}

fn extend(source: &mut Vec<u8>, bytes: &[u8], count: usize, random: &mut Random) {
    source.extend((0..count).map(|_| bytes[random.below(bytes.len())]));
}

fn peek(position: usize, source: &[u8]) -> Case {
    Case { routine: Routine::PeekIdentifier, position, source: source.to_vec(), ..Case::default() }
}

fn skip(position: usize, count: usize, source: &[u8]) -> Case {
    Case { routine: Routine::Skip, position, count, source: source.to_vec(), ..Case::default() }
}
