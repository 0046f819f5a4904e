//! Beside PHP: where it finds other blocks, heredocs or remarks in a script, the sheet must not be ok. The answers of
//! PHP 8.2 are stored, of the sample sheets in sheets/php-parts.txt, of small scripts in corpus.txt; where PHP is
//! installed they are asked for again.

use std::collections::BTreeSet;
use std::env;
use std::fs;
use std::io::Write;
use std::path::{Path, PathBuf};
use std::process::{Command, Stdio};

use command::reading::sheet::{Part, Sheet, Verdict};
use command::reading::warning::Kind;

/// What PHP says of a script: whether it takes it, and what it finds.
struct Said {
    takes: bool,
    parts: BTreeSet<String>,
}

/// The lines of a file of answers: a script's name or text, and what PHP says.
fn answers(text: &str) -> Vec<(String, Said)> {
    let said = |words: &str| {
        let mut words = words.split("; ").map(str::to_string);
        Said { takes: words.next().as_deref() == Some("takes"), parts: words.collect() }
    };
    text.lines().filter_map(|line| line.split_once('\t')).map(|(name, words)| (name.to_string(), said(words))).collect()
}

/// What is found here, in the same words.
fn found(script: &[u8], sheet: &Sheet) -> BTreeSet<String> {
    let text = |bytes: &[u8]| String::from_utf8_lossy(bytes).into_owned();
    let name = |part: Part| match part {
        Part::Block(block, _) => format!("nowdoc {} {}", block.span.position, text(&block.label)),
        Part::Heredoc(heredoc) => {
            format!("heredoc {} {} {}", heredoc.span.position, text(&heredoc.label), heredoc.last)
        }
        Part::Remark(remark) => {
            let end = remark.span.position as usize + remark.text.len();
            // A remark that ends with its line has the CR of a CRLF.
            let has_cr =
                !remark.text.starts_with(b"/*") && remark.text.ends_with(b"\r") && script[end..].starts_with(b"\n");
            format!("remark {} {}", remark.span.position, remark.text.len() - usize::from(has_cr))
        }
    };
    sheet.parts().into_iter().map(name).collect()
}

/// Whether a sheet owns that what it found may not be what PHP finds.
fn is_told(sheet: &Sheet) -> bool {
    let is_about_rows = |kind| matches!(kind, Kind::LoneReturn | Kind::OpensNothing | Kind::OpenTag);
    sheet.verdict() == Verdict::Refused || sheet.warnings.iter().any(|warning| is_about_rows(warning.kind))
}

/// In a script that PHP takes, nothing that it finds may be missing or other without a word; one that it refuses may not be
/// ok. Whether the same is found.
fn hold(name: &str, script: &[u8], said: &Said) -> bool {
    let sheet = Sheet::read(script);
    let is_same = found(script, &sheet) == said.parts;
    assert!(is_same || is_told(&sheet) || !said.takes, "{}: {:?}, PHP {:?}", name, sheet, said.parts);
    assert!(said.takes || sheet.verdict() != Verdict::Ok, "{} is ok, and PHP refuses it", name);
    is_same
}

fn folder() -> PathBuf {
    PathBuf::from(env!("CARGO_MANIFEST_DIR"))
}

/// The bytes of a script that is written with \n, \r, \t, \\ and \xHH.
fn unescaped(text: &str) -> Vec<u8> {
    let (mut bytes, mut rest) = (Vec::new(), text.bytes());
    while let Some(byte) = rest.next() {
        bytes.push(match (byte, if byte == b'\\' { rest.next() } else { None }) {
            (b'\\', Some(b'n')) => b'\n',
            (b'\\', Some(b'r')) => b'\r',
            (b'\\', Some(b't')) => b'\t',
            (b'\\', Some(b'x')) => {
                let digits: Vec<u8> = rest.by_ref().take(2).collect();
                u8::from_str_radix(&String::from_utf8_lossy(&digits), 16).unwrap()
            }
            (byte, _) => byte,
        });
    }
    bytes
}

#[test]
fn sample_sheets() {
    let sheets = folder().join("../../sheets");
    let stored = answers(&fs::read_to_string(sheets.join("php-parts.txt")).unwrap());
    let names: BTreeSet<&str> = stored.iter().map(|(name, _)| name.as_str()).collect();
    for (part, count) in [("", 5), ("faulty/", 0)] {
        let there = fs::read_dir(sheets.join(part)).unwrap().map(|entry| entry.unwrap().file_name());
        let scripts: Vec<String> =
            there.filter_map(|name| name.to_str().filter(|name| name.ends_with(".php")).map(str::to_string)).collect();
        assert!(scripts.len() >= count, "{:?}", scripts);
        let missing = scripts.iter().find(|name| !names.contains(format!("{}{}", part, name).as_str()));
        assert_eq!(missing, None, "no answer of PHP is stored");
    }
    for (name, said) in &stored {
        let script = fs::read(sheets.join(name)).unwrap();
        hold(name, &script, said);
        let is_ok = Sheet::read(&script).verdict() == Verdict::Ok;
        assert_eq!(is_ok, !name.starts_with("faulty/"), "{}", name);
    }
}

#[test]
fn small_scripts() {
    let stored = answers(&fs::read_to_string(folder().join("tests/corpus.txt")).unwrap());
    let same = stored.iter().filter(|(text, said)| hold(text, &unescaped(text), said)).count();
    assert!(stored.len() == 500 && same > 450, "{} of {} are read as PHP does", same, stored.len());
}

/// The first PHP 8.2 of: the one that PURETAKOI_PHP names, php8.2, php.
fn php() -> Option<String> {
    let names = [env::var("PURETAKOI_PHP").ok(), Some("php8.2".to_string()), Some("php".to_string())];
    let is_it = |name: &String| {
        let version = "echo PHP_MAJOR_VERSION, '.', PHP_MINOR_VERSION;";
        let said = Command::new(name).args(["-r", version]).output();
        said.map_or(false, |said| said.stdout == b"8.2")
    };
    names.into_iter().flatten().find(is_it)
}

/// PHP asked again about what a file stores answers to.
fn asked(php: &str, stored: &str, words: &[&Path]) -> String {
    let program = folder().join("../../compare/php-parts.php");
    let mut asked = Command::new(php)
        .args(["-d", "short_open_tag=0"])
        .arg(program)
        .args(words)
        .stdin(Stdio::piped())
        .stdout(Stdio::piped())
        .spawn()
        .unwrap();
    let (mut input, text) = (asked.stdin.take().unwrap(), stored.to_string());
    let writer = std::thread::spawn(move || input.write_all(text.as_bytes()));
    let said = asked.wait_with_output().unwrap();
    writer.join().unwrap().unwrap();
    String::from_utf8(said.stdout).unwrap()
}

#[test]
fn stored_answers_are_those_of_php() {
    let php = match php() {
        Some(php) => php,
        None => return eprintln!("PHP 8.2 is not installed here, so its answers are not asked for again."),
    };
    let sheets = folder().join("../../sheets");
    let samples = fs::read_to_string(sheets.join("php-parts.txt")).unwrap();
    assert_eq!(asked(&php, &samples, &[&sheets]), samples);
    let corpus = fs::read_to_string(folder().join("tests/corpus.txt")).unwrap();
    assert_eq!(asked(&php, &corpus, &[]), corpus);
}
