//! Holds the oracle to files of `CASE => ANSWER` lines: `check NAME FILE [NAME FILE]..`.

use std::path::Path;
use std::process::exit;

fn main() {
    oracle::quiet_panics();
    let words: Vec<String> = std::env::args().skip(1).collect();
    if words.is_empty() || words.len() % 2 == 1 {
        eprintln!("check NAME FILE [NAME FILE]..");
        exit(2);
    }
    let mut lines = oracle::Lines::default();
    let mut good = true;
    for pair in words.chunks_exact(2) {
        let path = Path::new(&pair[1]);
        good &= cases::file::compare(&pair[0], path, |case, out| lines.answer_line(case, out));
    }
    exit(if good { 0 } else { 1 });
}
