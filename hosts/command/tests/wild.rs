//! Scripts that are made up: known rows must come back, and no bytes at all may end the program or spoil what it
//! writes.

mod common;

use std::fs;

use cases::pieces;
use cases::random::Random;
use command::reading::fault::Fault;
use command::reading::sheet::{Indentation, Sheet, Verdict};
use command::showing::html::{page, section};
use command::showing::text::{line, whole, Totals};
use command::showing::{braille, brf, json};
use common::markup::check;
use common::tests_folder;
use puretakoi::{refusals, Octal};

/// What is put into scripts: bytes that a terminal or a page would take for something else.
const STRANGE: &[&[u8]] =
    &[b"\x1B[2J", b"\0", b"<b>", b"&amp", b"\"'", "€".as_bytes(), b"\xE2\x82", "\u{202E}".as_bytes()];

#[test]
fn rows_come_back_as_they_were_put_in() {
    let mut random = Random::new(7);
    for _ in 0..2_000 {
        let (blank, depth) = (random.pick(&[" ", "\t"]), random.below(4));
        let indentation = blank.repeat(depth);
        let lf = random.pick(&["\n", "\r\n"]);
        let rows: Vec<String> = (0..random.below(5)).map(|_| row(&mut random)).collect();
        let body: String = rows.iter().map(|row| format!("{}{}{}", indentation, row, lf)).collect();
        let script = format!("<?php f(<<<'KERB'{}{}{}KERB);", lf, body, indentation);
        let sheet = Sheet::read(script.as_bytes());
        assert_ne!(sheet.verdict(), Verdict::Refused, "{:?}", script);
        assert_eq!(sheet.end as usize, script.len(), "{:?}", script);
        let got: Vec<&[u8]> = sheet.blocks[0].rows.iter().map(Vec::as_slice).collect();
        assert_eq!(got, rows.iter().map(String::as_bytes).collect::<Vec<_>>(), "{:?}", script);
        let want = match (depth, blank) {
            (0, _) => Indentation::None,
            (_, " ") => Indentation::Spaces(depth as u32),
            _ => Indentation::Tabs(depth as u32),
        };
        assert_eq!(sheet.blocks[0].indentation, want, "{:?}", script);
    }
}

/// A row that does not close the block.
fn row(random: &mut Random) -> String {
    (0..random.below(6)).map(|_| random.pick(&["o", ".", " ", "\t", "€", "KER", "KERBo", "KERB7", "KERB€"])).collect()
}

#[test]
fn no_bytes_end_it_or_spoil_what_it_writes() {
    let mut random = Random::new(1);
    for _ in 0..6_000 {
        let mut script = pieces::script(&mut random);
        for _ in 0..random.below(4) {
            let place = random.below(script.len() + 1);
            let byte = [random.below(256) as u8];
            let put_in = if random.below(2) == 0 { &byte[..] } else { random.pick(STRANGE) };
            script.splice(place..place, put_in.iter().copied());
        }
        let columns = [None, Some(10), Some(13), Some(30)][random.below(4)];
        check_written(&script, columns);
    }
}

#[test]
fn sheets_that_break_off_anywhere_are_shown() {
    for name in ["tabs-before-closer", "street-names", "remarks"] {
        let script = fs::read(tests_folder().join(format!("../../../sheets/{}.php", name))).unwrap();
        (0..script.len()).for_each(|end| check_written(&script[..end], Some(20)));
    }
}

/// Text without controls and no wider than asked, a single line among many, a page that is well-formed, and what
/// others read.
fn check_written(script: &[u8], columns: Option<usize>) {
    check_written_by(script, columns, Octal::Rust);
    check_written_by(script, columns, Octal::Manual);
}

fn check_written_by(script: &[u8], columns: Option<usize>, octals: Octal) {
    let sheet = Sheet::read_by(script, octals);
    let is_octal = |fault: &Fault| fault.refusal.number == refusals::INVALID_OCTAL_ESCAPE;
    assert!(octals == Octal::Rust || !sheet.faults.iter().any(is_octal), "{:?}", script);
    assert!(octals == Octal::Manual || sheet.notes.is_empty(), "{:?}", script);
    let text = whole("a.php", &sheet, columns);
    assert!(!has_control(&text), "{:?}: {}", script, text);
    let rows = text.lines().filter(|line| line.contains(" |"));
    // Accents that stand over the character before them take no column.
    let columns_of = |line: &str| line.chars().filter(|letter| !('\u{300}'..='\u{36F}').contains(letter)).count();
    let widest = rows.map(columns_of).max().unwrap_or(0);
    assert!(widest <= columns.unwrap_or(usize::MAX), "{:?}: {}", script, text);
    assert_eq!(line("a.php", &sheet).lines().count(), 1, "{:?}", script);
    let mut totals = Totals::default();
    totals.add(&sheet);
    check(&page(&totals, &[section("a.php", 1, &sheet)])).unwrap_or_else(|fault| panic!("{:?}: {}", script, fault));
    check_braille(script, &sheet, columns);
    check_json(script, &sheet);
}

fn has_control(text: &str) -> bool {
    text.chars().any(|letter| letter.is_control() && letter != '\n')
}

/// Braille no wider than asked, and pages of lines of at most 40 cells.
fn check_braille(script: &[u8], sheet: &Sheet, columns: Option<usize>) {
    let text = braille::whole("a.php", sheet, columns);
    assert!(!has_control(&text), "{:?}: {}", script, text);
    let is_braille = |line: &&str| line.chars().all(|letter| ('\u{2800}'..='\u{28FF}').contains(&letter));
    let widest = text.lines().filter(is_braille).map(|line| line.chars().count()).max().unwrap_or(0);
    assert!(widest <= columns.unwrap_or(usize::MAX), "{:?}: {}", script, text);
    let pages = brf::sheet("a.php", sheet);
    assert!(pages.split("\r\n").all(|line| line.trim_start_matches('\x0C').len() <= 40), "{:?}: {}", script, pages);
    let is_known = |letter: char| (' '..='_').contains(&letter) || "\r\n\x0C".contains(letter);
    assert!(pages.chars().all(is_known), "{:?}: {}", script, pages);
    assert!(pages.split('\x0C').all(|page| page.matches("\r\n").count() <= 25), "{:?}: {}", script, pages);
}

/// JSON that is well-formed, and has all bytes of the rows.
fn check_json(script: &[u8], sheet: &Sheet) {
    let text = json::sheet("a.php", sheet);
    let got = common::json::read(&text).unwrap_or_else(|fault| panic!("{:?}: {}: {}", script, fault, text));
    for (block, number) in sheet.blocks.iter().zip(0..) {
        let rows = got.get("blocks").at(number).get("rows");
        let kept = (0..block.rows.len()).map(|at| rows.at(at).bytes()).collect::<Vec<_>>();
        assert_eq!(kept, block.rows, "{:?}", script);
    }
}
