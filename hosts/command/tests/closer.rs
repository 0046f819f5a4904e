//! Which line closes a nowdoc block, and what is told of a block that none closes.

use command::reading::fault::Fault;
use command::reading::sheet::{Indentation, Sheet, Verdict};
use puretakoi::refusals;

/// The refusal of a script, which must be refused.
fn fault(script: &[u8]) -> Fault {
    let first = Sheet::read(script).faults.into_iter().next();
    first.unwrap_or_else(|| panic!("{:?} is not refused", String::from_utf8_lossy(script)))
}

/// The refusal's number, line and column, and what is told of it.
fn told(script: &str) -> (u32, u32, u32, String) {
    let fault = fault(script.as_bytes());
    let (number, span) = (fault.refusal.number, fault.refusal.span);
    (number, span.line, span.column, fault.detail.unwrap_or_default())
}

/// The rows of a script's only block.
fn rows(script: &str) -> Vec<String> {
    let sheet = Sheet::read(script.as_bytes());
    assert!(sheet.verdict() == Verdict::Ok && sheet.blocks.len() == 1, "{:?}", script);
    sheet.blocks[0].rows.iter().map(|row| String::from_utf8_lossy(row).into_owned()).collect()
}

/// Whether a line is a row for this byte behind the label.
fn makes_a_row(byte: u8) -> bool {
    matches!(byte, b'a'..=b'z' | b'A'..=b'Z' | b'0'..=b'9' | b'_' | 0x80..=0xFF)
}

#[test]
fn each_byte_behind_the_label() {
    for byte in 0..=255 {
        let is_row = makes_a_row(byte);
        let line = [b'A', b'B', byte];
        for front in [&[][..], &[&b"o"[..]]] {
            let body: Vec<u8> = front.iter().flat_map(|row| [b" ", *row, b"\n"].concat()).collect();
            let script = [b"<?php <<<'AB'\n", &body[..], b" ", &line, b"\n AB;"].concat();
            let want = if is_row { [front, &[&line[..]]].concat() } else { front.to_vec() };
            let block = &Sheet::read(&script).blocks[0];
            assert_eq!((&block.rows[..], block.indentation), (&to_rows(&want)[..], Indentation::Spaces(1)), "{}", byte);
        }
        let last = Sheet::read(&[b"<?php <<<'AB'\no\n", &line[..]].concat());
        assert_eq!(last.blocks.is_empty(), is_row, "{}", byte);
    }
}

fn to_rows(rows: &[&[u8]]) -> Vec<Vec<u8>> {
    rows.iter().map(|row| row.to_vec()).collect()
}

/// The row before owes the indentation of the line that closes, whose number is told.
#[test]
fn the_closing_line_for_each_byte_behind_the_label() {
    for byte in 0..=255 {
        let fault = fault(&[b"<?php <<<'AB'\no\n AB", &[byte][..], b"\n  AB;"].concat());
        let owed = if makes_a_row(byte) {
            "the 2 spaces of the closing line, line 4;"
        } else {
            "the 1 space of the closing line, line 3;"
        };
        let detail = fault.detail.unwrap_or_default();
        assert!(detail.contains(owed), "{}: {}", byte, detail);
    }
}

#[test]
fn a_caption_is_a_row_wherever_it_stands() {
    assert_eq!(rows("<?php <<<'EOT'\no\nEOTstrasse\no\nEOT;"), ["o", "EOTstrasse", "o"]);
    assert_eq!(rows("<?php <<<'EOT'\nEOTstrasse\no\nEOT;"), ["EOTstrasse", "o"]);
    assert_eq!(rows("<?php <<<'EOT'\no\nEOTstrasse\nEOT"), ["o", "EOTstrasse"]);
    assert_eq!(rows("<?php <<<'EOT'\r\n  EOTEOT\r\n  EOT\r\n;"), ["EOTEOT"]);
}

#[test]
fn a_caption_owes_its_indentation() {
    let owed = |blanks: &str, line, has: &str| {
        format!("Each row owes the {} of the closing line, line {}; this row starts with {}.", blanks, line, has)
    };
    let stray = refusals::STRAY_INDENTATION;
    let middle = told("<?php <<<'EOT'\n    o\n  EOTstrasse\n    o\n    EOT;");
    assert_eq!(middle, (stray, 3, 3, owed("4 spaces", 5, "2 spaces, then \"E\"")));
    let first = told("<?php <<<'EOT'\nEOT2\n\t\tEOT_\n\t\tEOT;");
    assert_eq!(first, (stray, 2, 1, owed("2 tabs", 4, "\"E\"")));
}

/// Blanks mixed before a caption are a row's; before the closing label they are refused.
#[test]
fn mixed_blanks_before_a_caption() {
    assert_eq!(rows("<?php <<<'EOT'\n \tEOTstrasse\n EOT;"), ["\tEOTstrasse"]);
    let mixed = told("<?php <<<'EOT'\n \tEOTstrasse\n\t EOT;");
    assert_eq!(mixed, (refusals::INVALID_DOC_INDENTATION, 3, 3, "Before EOT stand 1 tab and 1 space.".to_string()));
}

#[test]
fn what_comes_near_to_a_closing_line() {
    let open = "The nowdoc block EOT that opens at 1:7 is not closed: no line behind it starts with its label as a word of its own";
    for (body, near) in [
        ("o\n  EOTstrasse\nEOT2\n", ", but in line 3 letters follow the label"),
        ("EOT2\nEOTs", ", but in line 2 digits follow the label"),
        ("o\n\tEOT_;\n", ", but in line 3 \"_\" follows the label"),
        ("EOTä;\n", ", but in line 2 \"ä\" follows the label"),
        ("EOT\u{200B};\n", ", but in line 2 \"\\u{200B}\" follows the label"),
        ("EOTstrasse\no\nEOTs;\n", ", but in line 4 letters follow the label"),
        ("EOTs;\n$b = <<<'EOT'\no\nEOTs;\n", ", but in line 2 letters follow the label"),
        ("EOTs);\n$b = 'see EOT';\n", ", but in line 2 letters follow the label"),
        ("EOTstrasse\no\neot;\n", ", but line 4 has it in other letter case"),
        ("eot;\nEOTs;\n", ", but line 2 has it in other letter case"),
        ("o EOT;\n", ", but line 2 has it behind other characters"),
        ("oEOTsEOT", ", but line 2 has it behind other characters"),
        // No label that would close in its place or letter case.
        ("eots;\no EOTs;\nEO", ""),
    ] {
        let (number, _line, _column, detail) = told(&format!("<?php <<<'EOT'\n{}", body));
        assert_eq!((number, detail), (refusals::UNEXPECTED_END_OF_FILE, format!("{}{}.", open, near)), "{:?}", body);
    }
}
