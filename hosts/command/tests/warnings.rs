//! Each warning: where it stands, what it tells, and what is read in its place, worked by hand from what PHP reads.

use command::reading::sheet::{Part, Sheet, Verdict};
use command::reading::warning::Kind;

/// A sheet's warnings: kind, line and column.
fn warned(script: &[u8]) -> Vec<(Kind, u32, u32)> {
    let sheet = Sheet::read(script);
    sheet.warnings.iter().map(|warning| (warning.kind, warning.span.line, warning.span.column)).collect()
}

/// What is in a sheet, in its order: a block's label and rows, a heredoc's label and lines, a remark's text; `?` behind
/// a guess.
fn held(script: &[u8]) -> Vec<String> {
    let text = |bytes: &[u8]| String::from_utf8_lossy(bytes).into_owned();
    let name = |part: Part| match part {
        Part::Block(block, _) => {
            let rows: Vec<String> = block.rows.iter().map(|row| text(row)).collect();
            format!("{}{}: {}", text(&block.label), guess(block.is_guess), rows.join("|"))
        }
        Part::Heredoc(heredoc) => {
            let (label, guess) = (text(&heredoc.label), guess(heredoc.is_guess));
            format!("heredoc {}{} {} to {}", label, guess, heredoc.span.line, heredoc.last)
        }
        Part::Remark(remark) => format!("{}{}", text(&remark.text), guess(remark.is_guess)),
    };
    Sheet::read(script).parts().into_iter().map(name).collect()
}

fn guess(is_guess: bool) -> &'static str {
    if is_guess {
        "?"
    } else {
        ""
    }
}

/// What the only warning of a script tells, and what it advises.
fn sentence(script: &[u8]) -> (String, String) {
    let sheet = Sheet::read(script);
    assert_eq!(sheet.warnings.len(), 1, "{:?}", String::from_utf8_lossy(script));
    (sheet.warnings[0].told.clone(), sheet.warnings[0].whole_advice())
}

#[test]
fn a_good_sheet_has_none() {
    for script in [
        &b"<?php $a = <<<'A'\no\nA;\n// x\n# it's \"\n"[..],
        b"<?php f(<<<'A'\r\n  o\r\n  A, \"{$b} \\\\{$c} ${d} $e[0]\", `ls \\\\`, <<<E\n$x\nE);\r\n",
        b"<?PHP\n<<<'A'\nA;\n?>\n<?= 1 << 2 ?>\n<?php\t$x->__halt_compiler; $__halt_compiler;",
        b"<?php\r\n#[A]\r\n<<<'A'\r\nA;\r\n# x\r\n",
    ] {
        assert_eq!(warned(script), [], "{:?}", String::from_utf8_lossy(script));
        assert_eq!(Sheet::read(script).verdict(), Verdict::Ok);
    }
}

#[test]
fn openings_that_the_library_passes() {
    for (opening, is_nowdoc, advice) in [
        ("<<<'A' ", true, "Take away the blanks behind the label."),
        ("<<<A\t ", false, "Take away the blanks behind the label."),
        ("<<<\"A\"", false, "Write the label without quotes, or in single quotes for a block of rows."),
        ("<<< 'A'", true, "Take away the blanks before the label."),
        ("<<<\t A", false, "Take away the blanks before the label."),
        (
            "<<< \"A\"",
            false,
            "Take away the blanks before the label. Write the label without quotes, or in single quotes for a block of rows.",
        ),
    ] {
        let script = format!("<?php\n$a = {}\n##\n# it's\n  /* \"\nA;\n# b\n", opening);
        let script = script.as_bytes();
        let want = if is_nowdoc { "A?: ##|# it's|  /* \"" } else { "heredoc A? 2 to 6" };
        assert_eq!(held(script), [want, "# b"], "{}", opening);
        let mut kinds = vec![(Kind::OpensNothing, 2, 6)];
        // What a heredoc reading leaves without a block is not told on top.
        assert_eq!(warned(script), kinds, "{}", opening);
        kinds.clear();
        let (told, advised) = sentence(script);
        assert!(told.contains(" opens no block"), "{}", told);
        assert_eq!(advised, format!("It is read as a block here. {}", advice), "{}", opening);
    }
}

#[test]
fn what_php_does_with_an_opening() {
    let told = |opening: &str| sentence(format!("<?php {}\no\nA;\n", opening).as_bytes()).0;
    assert_eq!(told("<<<\"A\""), "<<<\"A\" opens no block; PHP opens a heredoc");
    assert_eq!(told("<<< 'A'"), "<<< 'A' opens no block; PHP opens a nowdoc block");
    assert_eq!(told("<<<'A' "), "<<<'A'  opens no block; PHP refuses it");
}

#[test]
fn labels_that_are_too_long_are_passed() {
    let long = "L".repeat(65);
    let heredoc = format!("<?php $a = <<<{}\n'\n {};\n$b = <<<'B'\no\nB;\n", long, long);
    assert_eq!(held(heredoc.as_bytes()), [format!("heredoc {}? 1 to 3", long), "B: o".to_string()]);
    let nowdoc = format!("<?php $a = <<<'{}'\n'\n {};\n$b = <<<'B'\no\nB;\n", long, long);
    assert_eq!(held(nowdoc.as_bytes()), ["B: o"]);
    let (told, advice) = sentence(nowdoc.as_bytes());
    assert_eq!(told, format!("<<<'{}' opens no block; PHP opens a nowdoc block", long));
    assert_eq!(advice, "It is passed here, up to line 3. Write a label of at most 64 bytes.");
}

#[test]
fn other_runs_of_three_open_nothing() {
    for (script, column) in
        [("<?php 1 <<< 2;", 9), ("<?php <<<", 7), ("<?php <<<A", 7), ("<?php <<<'A", 7), ("<?php <<<'A\"\n", 7)]
    {
        let found = warned(script.as_bytes());
        assert_eq!(found.first(), Some(&(Kind::OpensNothing, 1, column)), "{}", script);
    }
    // A longer run is told once, and opens nothing, as in PHP.
    assert_eq!(warned(b"<?php 1 <<<<A\n<<<'B'\no\nB;"), [(Kind::OpensNothing, 1, 9)]);
    assert_eq!(held(b"<?php 1 <<<<A\n<<<'B'\no\nB;"), ["B: o"]);
    // Where it is no script nothing is told.
    assert_eq!(warned(b"<<< 'x'\n<?php '<<< a' . \"<<<\" /* <<< */; <<<'B'\n<<< \"C\"\nB;"), []);
}

#[test]
fn a_heredoc_that_its_first_line_closes() {
    let script = b"<?php\n$a = <<<EOD\nEOD;\n$b = <<<'B'\no\nB;\n$c = <<<'C'\nC;\n$d = <<<EOD\nx\nEOD;\n";
    assert_eq!(held(script), ["heredoc EOD 2 to 3", "B: o", "C: ", "heredoc EOD 9 to 11"]);
    let told = "PHP closes this heredoc at line 3; the library's reading goes on to line 11, \
                and the blocks at 4:6, 7:6 lie between";
    assert_eq!(sentence(script).0, told);
    let open = b"<?php <<<'A'\nA; <<<EOD\n  EOD . 'x';\n";
    assert_eq!(sentence(open).0, "PHP closes this heredoc at line 3; the library's reading finds no closing line");
    assert_eq!(Sheet::read(open).verdict(), Verdict::Warned);
    // A word that goes on closes nothing.
    assert_eq!(warned(b"<?php <<<'A'\nA; <<<EOD\nEODx\nEOD;"), []);
}

#[test]
fn a_heredoc_that_letters_behind_the_label_do_not_close() {
    let script = b"<?php\n<<<'A'\nA;\n$a = <<<EOD\nx\n EODs\n'\nEOD;\n# y\n";
    assert_eq!(warned(script), [(Kind::ClosesElsewhere, 6, 2)]);
    assert_eq!(held(script), ["A: ", "heredoc EOD 4 to 8", "# y"]);
}

#[test]
fn a_heredoc_that_a_cr_closes() {
    let script = b"<?php\n<<<'A'\nA;\n$a = <<<EOD\nx\r EOD; # y\nEOD;\n";
    assert_eq!(warned(script), [(Kind::ClosesElsewhere, 5, 4)]);
    assert_eq!(held(script), ["A: ", "heredoc EOD 4 to 5", "# y"]);
}

#[test]
fn a_cr_in_rows_is_told() {
    let script = b"<?php\n<<<'A'\no\ro\r\no\rA2\nA;\n";
    assert_eq!(warned(script), [(Kind::LoneReturn, 3, 2)]);
    assert_eq!(sentence(script).0, "in this block stand 2 CRs without an LF; PHP takes it for a line break");
    let closed = sentence(b"<?php\n<<<'A'\no\r A;\nA;\n").0;
    assert_eq!(closed, "PHP closes this block at 3:4, behind a CR alone");
}

#[test]
fn tags_that_php_takes_for_text() {
    assert_eq!(warned(b"<? <<<'A'\nA;"), [(Kind::OpenTag, 1, 1)]);
    assert_eq!(warned(b"a <?phpx <<<'A'\nA;"), [(Kind::OpenTag, 1, 3)]);
    // The tag of XML is text: its quote opens no string.
    let xml = b"<?xml version='1.0 ?>\n<?php <<<'A'\no\nA;";
    assert_eq!(warned(xml), [(Kind::OpenTag, 1, 1)]);
    assert_eq!(held(xml), ["A: o"]);
}

#[test]
fn what_follows_the_halt_is_not_read() {
    let script = b"<?php <<<'A'\no\nA;\n__HALT_compiler();'\n# x <<<'B'\nB;";
    assert_eq!(warned(script), [(Kind::HaltCompiler, 4, 1)]);
    assert_eq!(held(script), ["A: o"]);
}

#[test]
fn backslashes_that_php_takes_for_escapes() {
    let start = "<?php <<<'A'\nA;\n";
    for (text, column) in [
        ("`a \\` b`; # x", 5),
        ("\"\\{$a\"; # x", 3),
        ("\"$b \\\\\\{$a\"; # x", 8),
        ("`\\${a`; # x", 3),
        ("`\\$a[`; # x", 3),
    ] {
        let script = format!("{}{}\n", start, text);
        assert_eq!(warned(script.as_bytes()), [(Kind::Escape, 3, column)], "{}", text);
        assert_eq!(held(script.as_bytes()), ["A: ", "# x"], "{}", text);
    }
    let heredoc = b"<?php <<<'A'\nA;\n<<<E\n\\{$a\nE; # x\n";
    assert_eq!((warned(heredoc), held(heredoc).len()), (vec![(Kind::Escape, 4, 2)], 3));
}

/// The library passes bytes up to the next `]`, and with them blocks.
#[test]
fn brackets_that_php_refuses() {
    for (text, column) in
        [("\"$a[ 0]\"", 11), ("\"$a[\";", 11), ("\"$a['k']\"", 11), ("\"$a[b\\c]\"", 12), ("\"$a[1\nx\"", 12)]
    {
        let script = format!("<?php {};\n<<<'A'\no\nA; $x[0]; # b\n", text);
        let found = warned(script.as_bytes());
        assert_eq!(found.first(), Some(&(Kind::Offset, 1, column)), "{:?}", script);
        assert_eq!(held(script.as_bytes()), ["A: o", "# b"], "{:?}", script);
    }
    assert_eq!(warned(b"<?php \"$a[0] $a[b] $a[-1] $a[$b]\" . $a['k'] . \"{$a['k']}\"; <<<'A'\nA;"), []);
}

#[test]
fn an_interpolation_that_is_not_ended() {
    for (script, column) in
        [("\"x {$a ;", 4), ("`{$a . \"${b}\"", 4), ("\"$a[0] {$b . \"{$c", 17), ("<<<E\n{$a\nE;", 4)]
    {
        let script = format!("<?php <<<'A'\nA; {}", script);
        assert_eq!(warned(script.as_bytes()), [(Kind::StillOpen, 2, column)], "{}", script);
    }
}

#[test]
fn whole_scripts() {
    for (script, kind) in [
        (&b""[..], Kind::Empty),
        (b"no tag\n", Kind::NoOpenTag),
        (b"\xFF\xFE<\0?\0p\0h\0p\0", Kind::Utf16),
        (b"\xFE\xFF\0<\0?\0p\0h\0p\0\n", Kind::Utf16),
        (b"<\0?\0p\0h\0p\0\r\0\n\0", Kind::Utf16),
        (b"<?php echo 1;", Kind::NoBlock),
        (b"\xEF\xBB\xBF<?php echo 1;", Kind::NoBlock),
    ] {
        assert_eq!(warned(script), [(kind, 1, 1)], "{:?}", script);
        assert!(Sheet::read(script).warnings[0].mark.is_none());
    }
}

#[test]
fn why_there_is_no_block() {
    let remark = sentence(b"<?php\n/* <<<'A'\no\nA; */").0;
    assert_eq!(remark, "no block is in the script, but <<< stands in the remark at 2:1");
    let heredoc = sentence(b"<?php\n <<<A\no\nA; # x").0;
    assert_eq!(heredoc, "no block is in the script, but a heredoc at 2:2, which is not shown");
}

#[test]
fn lines_that_end_in_a_cr_are_read_as_lines() {
    let script = b"<?php\r# it's\r$a = <<<'A'\r  ##\r  A;\r";
    assert_eq!(warned(script), [(Kind::CrLines, 1, 1)]);
    assert_eq!(held(script), ["# it's?", "A?: ##"]);
}
