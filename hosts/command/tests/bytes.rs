//! `bytes`: the page for transcribers is the one that is stored, and says of each byte what the library answers.

mod common;

use std::fs;
use std::path::Path;

use common::{call, Run};
use puretakoi::classes_of;

/// What is printed of these bytes, or the page.
fn bytes(words: &[&str]) -> String {
    let Run { status, out, errors } = call(&[&["bytes"], words].concat());
    assert_eq!((status, errors.as_str()), (Some(0), ""), "{:?}", words);
    out
}

/// A line of the list: its first and its last byte, and what it says of them.
fn listed(line: &str) -> Option<(u8, u8, &str)> {
    let (hex, told) = line.strip_prefix("- 0x")?.split_once(", ")?;
    let (first, last) = hex.split_once(" to 0x").unwrap_or((hex, hex));
    let byte = |digits| u8::from_str_radix(digits, 16).ok();
    Some((byte(first)?, byte(last)?, told.rsplit_once(": ")?.1))
}

#[test]
fn the_page_is_the_one_that_is_stored() {
    let stored = Path::new(env!("CARGO_MANIFEST_DIR")).join("../../docs/BYTES.md");
    let stored = fs::read_to_string(stored).unwrap_or_default();
    let printed = bytes(&[]);
    let same = printed.lines().zip(stored.lines()).take_while(|(one, other)| one == other).count();
    assert!(
        printed == stored,
        "docs/BYTES.md is not what puretakoi bytes prints, from line {} on: make it anew with \
         `puretakoi bytes > docs/BYTES.md`, and look at what has changed",
        same + 1
    );
}

#[test]
fn the_list_has_each_byte_once_with_its_classes() {
    let page = bytes(&[]);
    let mut next = 0;
    for (first, last, told) in page.lines().filter_map(listed) {
        assert_eq!(usize::from(first), next, "{}", told);
        for byte in first..=last {
            assert_eq!(told, classes_of(byte).to_string(), "byte {:#04X}", byte);
        }
        next = usize::from(last) + 1;
    }
    assert_eq!(next, 256);
}

/// Rows of the grid that were written by hand; its columns are headed, and a row fits 40 cells.
#[test]
fn the_grid_by_hand() {
    let page = bytes(&[]);
    for row in [
        "       0 1 2 3 4 5 6 7 8 9 A B C D E F",
        "    0  N N N N N N N N N B N N N N N N",
        "    2  B N S S N N N S N N N N N N S S",
        "    3  O O O O O O O O E E N N S N N S",
        "    5  L L L L L L L L L L L N N N N U",
        "    6  S H H H H H H L L L L L L L L L",
        "    7  L L L L L L L L L L L S N S N N",
        "    8  U U U U U U U U U U U U U U U U",
        "    F  U U U U U U U U U U U U U U U U",
    ] {
        assert!(row.len() <= 40 && page.lines().any(|line| line == row), "{}", row);
    }
    assert!(page.lines().all(|line| line.chars().count() < 120));
}

/// The grid is the table that stands in the library's source, letter for letter.
#[test]
fn the_grid_is_the_table_of_the_source() {
    let source = Path::new(env!("CARGO_MANIFEST_DIR")).join("../../crates/byte/src/classes.rt");
    let source = fs::read_to_string(source).unwrap_or_default();
    let rows = source.lines().filter_map(|line| line.trim().strip_prefix('[')?.split_once("], // "));
    let rows: Vec<String> = rows.map(|(row, digit)| format!("    {}  {}", digit, row.replace(',', ""))).collect();
    assert_eq!(rows.len(), 16, "crates/byte/src/classes.rt has another table");
    let page = bytes(&[]);
    assert!(page.contains(&rows.join("\n")), "the page's grid is another than\n{}", rows.join("\n"));
}

#[test]
fn bytes_that_are_asked_for() {
    let told = "- 0x5F, 95, underscore `_`: identifier start, identifier byte\n\
                - 0x7F, 127, DEL: none\n\
                - 0xC3, 195, beyond ASCII: identifier start, identifier byte\n\
                - 0xA9, 169, beyond ASCII: identifier start, identifier byte\n";
    assert_eq!(bytes(&["_", "0x7F", "é"]), told);
    assert_eq!(bytes(&["_", "0x7f", "0XC3", "0xA9"]), told);
    let told = "- 0x20, 32, space: blank\n- 0x09, 9, tab: blank\n- 0x0A, 10, line feed (LF): none\n\
                - 0x60, 96, backtick \\`: sign\n- 0x7C, 124, vertical bar `|`: none\n";
    assert_eq!(bytes(&[" \t\n`|"]), told);
    let told = "- 0x38, 56, digit `8`: digit, hex digit, identifier byte\n\
                - 0x47, 71, capital letter `G`: letter, identifier start, identifier byte\n\
                - 0x1B, 27, control byte ESC: none\n";
    assert_eq!(bytes(&["8G", "0x1B"]), told);
}

/// Each byte alone has the classes of its line in the page.
#[test]
fn each_byte_alone() {
    let words: Vec<String> = (0..256).map(|byte| format!("0x{:X}", byte)).collect();
    let all = bytes(&words.iter().map(String::as_str).collect::<Vec<_>>());
    let expected = (0..=u8::MAX).map(|byte| (byte, byte, classes_of(byte).to_string()));
    let found = all.lines().filter_map(listed).map(|(first, last, told)| (first, last, told.to_string()));
    assert!(found.eq(expected), "{}", all);
}
