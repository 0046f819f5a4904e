//! The scripts that are tried: stored ones, sample sheets, some at the limits, random ones; and long ones with what must be printed.

use std::fs;
use std::path::{Path, PathBuf};

use cases::hex;
use cases::pieces;
use cases::random::Random;

/// The longest script that rows reads.
const LONGEST: usize = 16_384;

/// So many scripts that rows reads; random ones behind the fixed ones.
pub fn short(count: usize, seed: u64) -> Vec<Vec<u8>> {
    let mut random = Random::new(seed);
    let mut all = fixed();
    all.extend(stored());
    all.extend(sheets());
    while all.len() < count {
        let glued: Vec<Vec<u8>> = (0..=random.below(4)).map(|_| pieces::script(&mut random)).collect();
        all.push(glued.concat());
    }
    all
}

/// None, all that rows reads in one string, in one comment, in many numbers and in many comments, comments of each form, a full stack
/// and one frame more, labels at their limit and above.
fn fixed() -> Vec<Vec<u8>> {
    let deep = |count| [&b"<?php "[..], &vec![b'{'; count]].concat();
    let label = |count| [&b"<?php <<<"[..], &vec![b'E'; count], b"\n\n", &vec![b'E'; count]].concat();
    let forms = b"<?php // it's\n#[a] # b?><?= /* \"\n?> */ 'c' /**/ \"{$d /*\n*/}\" // e\r\n/*/".to_vec();
    let full = [quote(LONGEST), comment(LONGEST), line_comment(LONGEST), numbers(LONGEST), comments(LONGEST)];
    [&full[..], &[Vec::new(), forms, deep(63), deep(64), label(64), label(65)]].concat()
}

/// The scripts of compare's stored runs of rows, without those that are too long for rows and not for the hosts.
fn stored() -> Vec<Vec<u8>> {
    let runs = fs::read_to_string(repository().join("compare/scripts/runs.txt")).expect("the stored runs can be read");
    let mut all = Vec::new();
    for (word, _) in runs.lines().filter(|line| !line.starts_with('#')).filter_map(|line| line.split_once(" => ")) {
        let mut script = Vec::new();
        hex::read_repeats(word.as_bytes(), &mut script).expect("a stored script is hex");
        all.push(script);
    }
    all.retain(|script| script.len() <= LONGEST);
    all
}

/// The sample sheets, by name.
fn sheets() -> Vec<Vec<u8>> {
    let folders = ["sheets", "sheets/faulty"].map(|name| repository().join(name));
    let entries = folders.iter().flat_map(|folder| fs::read_dir(folder).expect("the sample sheets can be read"));
    let mut files: Vec<PathBuf> = entries.filter_map(|entry| entry.ok().map(|entry| entry.path())).collect();
    files.sort();
    files.retain(|file| file.extension().map_or(false, |extension| extension == "php"));
    files.iter().map(|file| fs::read(file).expect("a sample sheet can be read")).collect()
}

fn repository() -> PathBuf {
    Path::new(env!("CARGO_MANIFEST_DIR")).join("../..")
}

/// A script of so many bytes that is a string of breaks.
fn quote(size: usize) -> Vec<u8> {
    [&b"<?php '"[..], &vec![b'\n'; size - 8], b"'"].concat()
}

/// A script of so many bytes that is a comment of breaks.
fn comment(size: usize) -> Vec<u8> {
    [&b"<?php /*"[..], &vec![b'\n'; size - 10], b"*/"].concat()
}

/// A script of so many bytes that is a comment which the script's end closes.
fn line_comment(size: usize) -> Vec<u8> {
    [&b"<?php #"[..], &vec![b'?'; size - 7]].concat()
}

/// A script of so many bytes, an even number, that is as many comments as go in, a line each.
fn comments(size: usize) -> Vec<u8> {
    [&b"<?php "[..], &b"#\n".repeat((size - 6) / 2)].concat()
}

/// A script of so many bytes, an even number, that is as many numbers as go in.
fn numbers(size: usize) -> Vec<u8> {
    [&b"<?php "[..], &b"1;".repeat((size - 6) / 2)].concat()
}

/// A script of so many bytes that ends in a number of two digits.
fn number_last(size: usize) -> Vec<u8> {
    [&b"<?php "[..], &vec![b';'; size - 8], b"12"].concat()
}

/// Scripts that are longer than rows reads, at which piece sizes, and what must be printed of them, worked by hand.
pub fn long() -> Vec<(Vec<u8>, Vec<usize>, Vec<u8>)> {
    const TAG: &str = "2 1 1 0 0 5 5\n";
    const REFUSED: &str = "refused 11 1 1 0\n";
    let row = |place: usize| format!("19 1 {} {} 0 1 {}\n", 7 + 2 * place, 6 + 2 * place, 7 + 2 * place);
    let rows: String = (0..32_765).map(row).collect();
    let below = |place: usize| format!("21 {} 1 {} 0 1 {}\n", 1 + place, 6 + 2 * place, 7 + 2 * place);
    let remarks: String = (1..32_765).map(below).collect();
    let more = |mut script: Vec<u8>, bytes: &[u8]| {
        script.extend_from_slice(bytes);
        script
    };
    // A string or a comment is read anew at each piece, so it comes in large ones.
    let (any, large) = (vec![1, 7, 64, 100_000], vec![4_096, 65_536, 65_537, 100_000]);
    let scripts = [
        (quote(65_536), &large, format!("{}17 1 7 6 0 65528 65536\nend 65536\n", TAG)),
        (quote(65_537), &large, format!("{}{}", TAG, REFUSED)),
        (comment(65_536), &large, format!("{}21 1 7 6 0 65530 65536\nend 65536\n", TAG)),
        (comment(65_537), &large, format!("{}{}", TAG, REFUSED)),
        (line_comment(65_536), &large, format!("{}21 1 7 6 0 65530 65536\nend 65536\n", TAG)),
        (line_comment(65_537), &large, format!("{}{}", TAG, REFUSED)),
        (comments(65_536), &any, format!("{}21 1 7 6 0 1 7\n{}end 65536\n", TAG, remarks)),
        (numbers(65_536), &any, format!("{}{}end 65536\n", TAG, rows)),
        (more(numbers(65_536), b";"), &any, format!("{}{}{}", TAG, rows, REFUSED)),
        (more(numbers(65_536), &[b'\''; 200_000]), &any, format!("{}{}{}", TAG, rows, REFUSED)),
        (number_last(65_536), &any, format!("{}19 1 65535 65534 0 2 65536\nend 65536\n", TAG)),
        (more(number_last(65_536), b"3"), &any, format!("{}{}", TAG, REFUSED)),
    ];
    scripts.into_iter().map(|(script, pieces, printed)| (script, pieces.clone(), printed.into_bytes())).collect()
}
