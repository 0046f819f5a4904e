//! All refusals of a script: where the reading goes on behind one, and what is a guess then.

use command::reading::sheet::{Sheet, Verdict};
use puretakoi::refusals::*;
use puretakoi::Octal;

/// A sheet's refusals: number, the place to look at, and whether it is met in a guess.
fn refused(script: &str) -> Vec<(u32, u32, u32, bool)> {
    refused_by(script, Octal::Manual)
}

fn refused_by(script: &str, octals: Octal) -> Vec<(u32, u32, u32, bool)> {
    let sheet = Sheet::read_by(script.as_bytes(), octals);
    let faults = sheet.faults.iter();
    faults.map(|fault| (fault.refusal.number, fault.place.line, fault.place.column, fault.is_guess)).collect()
}

/// The labels of a sheet's blocks, and whether each is a guess.
fn blocks(script: &str) -> Vec<(String, bool)> {
    let sheet = Sheet::read(script.as_bytes());
    let label = |label: &[u8]| String::from_utf8_lossy(label).into_owned();
    sheet.blocks.iter().map(|block| (label(&block.label), block.is_guess)).collect()
}

fn sure(labels: &[&str]) -> Vec<(String, bool)> {
    labels.iter().map(|label| (label.to_string(), false)).collect()
}

#[test]
fn behind_a_block_that_is_refused() {
    let script = "<?php\n$a = <<<'A'\n  o\n o\n  A;\n$b = <<<'B'\no\n \tB;\n$c = <<<'C'\no\nC;\n$d = <<<'D'\no\n D;\n";
    let want =
        [(STRAY_INDENTATION, 4, 2, false), (INVALID_DOC_INDENTATION, 8, 3, false), (STRAY_INDENTATION, 13, 1, false)];
    assert_eq!(refused(script), want);
    assert_eq!(blocks(script), sure(&["C"]));
    assert_eq!(Sheet::read(script.as_bytes()).verdict(), Verdict::Refused);
}

#[test]
fn behind_an_escape_that_is_refused() {
    let script = "<?php f(\"\\400 \\u{D800}$a \\777\", <<<E\n\\u{x} {$b}\nE, <<<'A'\no\nA);";
    let want = [
        (INVALID_OCTAL_ESCAPE, 1, 14, false),
        (INVALID_UNICODE_ESCAPE, 1, 23, false),
        (INVALID_OCTAL_ESCAPE, 1, 30, false),
        (INVALID_UNICODE_ESCAPE, 2, 4, false),
    ];
    assert_eq!(refused_by(script, Octal::Rust), want);
    assert_eq!(blocks(script), sure(&["A"]));
    // The manual's octals leave the others.
    assert_eq!(refused(script), [want[1], want[3]]);
    assert_eq!(Sheet::read_by(script.as_bytes(), Octal::Rust).blocks, Sheet::read(script.as_bytes()).blocks);
}

#[test]
fn behind_a_line_in_which_a_string_is_open() {
    for open in ["\"a", "\"a $b", "`a", "f(\"{$a[0]} x"] {
        let script = format!("<?php <<<'A'\no\nA;\n  {}\n<<<'B'\no\nB;\n# it's\n", open);
        assert_eq!(blocks(&script), [("A".to_string(), false), ("B".to_string(), true)], "{}", open);
        let quote = 3 + open.find(['"', '`']).unwrap() as u32;
        assert_eq!(refused(&script), [(UNEXPECTED_END_OF_FILE, 4, quote, false)], "{}", open);
        assert!(Sheet::read(script.as_bytes()).remarks[0].is_guess);
    }
    let single = "<?php <<<'A'\no\nA;\n  'it\n# b\n";
    assert_eq!(refused(single), [(UNEXPECTED_END_OF_FILE, 4, 3, false)]);
    assert!(Sheet::read(single.as_bytes()).remarks[0].is_guess);
    // Two are told, and nothing is read behind the second.
    let two = "<?php\n\"a\n`b\n# c\n";
    assert_eq!(refused(two), [(UNEXPECTED_END_OF_FILE, 2, 1, false), (UNEXPECTED_END_OF_FILE, 3, 1, true)]);
    assert_eq!(Sheet::read(two.as_bytes()).remarks, []);
}

#[test]
fn behind_a_line_that_should_have_closed_a_block() {
    let script = "<?php <<<'A'\no\na;\n<<<'B'\no\nB;\n";
    assert_eq!(refused(script), [(UNEXPECTED_END_OF_FILE, 1, 7, false)]);
    assert_eq!(blocks(script), [("B".to_string(), true)]);
    // Where no line comes near, nothing is read on.
    assert_eq!(blocks("<?php <<<'A'\no\n<<<'B'\no\nB;\n"), []);
    assert_eq!(blocks("<?php /*\n<<<'B'\no\nB;\n"), []);
}

/// PHP closes the block behind a CR alone, so that what follows is sure.
#[test]
fn behind_a_block_that_a_cr_closes() {
    let script = "<?php <<<'A'\no\rA;\n<<<'B'\no\nB;\n";
    assert_eq!((refused(script).len(), blocks(script)), (1, sure(&["B"])));
    let detail = Sheet::read(script.as_bytes()).faults[0].detail.clone().unwrap();
    assert!(detail.ends_with("is not closed: PHP closes it at 2:3, behind a CR alone."), "{}", detail);
}

#[test]
fn a_quote_too_many() {
    let script = "<?php\n\n$a = 'x'';\n$b = 'y';\n<<<'A'\no\nA;\n";
    assert_eq!(refused(script), [(UNEXPECTED_END_OF_FILE, 3, 9, false)]);
    // What follows its line is read again, for strings and script had changed places.
    assert_eq!(blocks(script), [("A".to_string(), true)]);
    let fault = &Sheet::read(script.as_bytes()).faults[0];
    let suspect = fault.suspect.as_ref().map(|mark| (mark.line, &mark.text[..], mark.at));
    assert_eq!(suspect, Some((3, &b"$a = 'x'';"[..], 8)));
    let detail = fault.detail.clone().unwrap();
    let want = "The single-quoted string that opens at 5:6 is not closed: the quote at its end is missing, or a quote \
                before it is one too many: \"'\" stands right behind the string from 3:6 to 3:9.";
    assert_eq!(detail, want);
    // What was refused in the strings that had been script is forgotten, and told where it stands.
    let twice = "<?php\n$a = 'x'';\n$b = \"\\400\";\n$c = 'y';\n";
    let both = [(UNEXPECTED_END_OF_FILE, 2, 9, false), (INVALID_OCTAL_ESCAPE, 3, 11, true)];
    assert_eq!(refused_by(twice, Octal::Rust), both);
    assert_eq!(refused(twice), both[..1]);
    // A quote too many is found after an escape over 377 too, by both octals.
    let after = "<?php\n$b = \"\\400\";\n$a = 'x'';\n$c = 'y';\n";
    assert_eq!(refused(after), [(UNEXPECTED_END_OF_FILE, 3, 9, false)]);
    let both = [(INVALID_OCTAL_ESCAPE, 2, 11, false), (UNEXPECTED_END_OF_FILE, 3, 9, false)];
    assert_eq!(refused_by(after, Octal::Rust), both);
    // With no string that a word or a quote follows none is named.
    let detail = Sheet::read(b"<?php 'a' . 'b").faults[0].detail.clone().unwrap();
    assert!(detail.ends_with("the quote at its end is missing, or a quote before it is one too many."), "{}", detail);
}

#[test]
fn nothing_is_read_behind_these() {
    let deep = format!("<?php {}<<<'A'\no\nA;", "{".repeat(70));
    assert_eq!((refused(&deep), blocks(&deep)), (vec![(STACK_FULL, 1, 70, false)], vec![]));
    let large = format!("<?php <<<'A'\no\nA;{}", " ".repeat(65_536));
    assert_eq!((refused(&large), blocks(&large)), (vec![(TOO_LARGE, 1, 1, false)], sure(&["A"])));
}

/// A line may hold thousands of faults, each of which shows the line.
#[test]
fn a_hundred_are_told() {
    for (text, is_refused) in [("\"\\400\";", true), ("<<<;", false), ("`\\``;", false)] {
        let script = format!("<?php {}", text.repeat(9_000));
        let sheet = Sheet::read_by(script.as_bytes(), Octal::Rust);
        assert_eq!(
            (sheet.faults.len() + sheet.warnings.len(), sheet.faults.is_empty()),
            (100, !is_refused),
            "{}",
            text
        );
        assert!(sheet.stopped.map_or(false, |span| span.position < 2_000), "{:?}", sheet.stopped);
        assert_ne!(sheet.verdict(), Verdict::Ok);
    }
}
