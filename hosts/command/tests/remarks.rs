//! Remarks: which bytes are one, in which order they are shown, and what is told of one that is not closed.

use cases::random::Random;
use command::reading::sheet::{Part, Sheet};
use command::reading::warning::Kind;
use puretakoi::refusals;

/// A remark's line, column and text.
type Placed = (u32, u32, String);

/// The remarks of a script, and whether it was read to its end.
fn remarks(script: &str) -> (Vec<Placed>, bool) {
    let sheet = Sheet::read(script.as_bytes());
    let text = |bytes: &[u8]| String::from_utf8_lossy(bytes).into_owned();
    let placed = sheet.remarks.iter().map(|remark| (remark.span.line, remark.span.column, text(&remark.text)));
    (placed.collect(), sheet.faults.is_empty())
}

#[test]
fn what_is_a_remark() {
    type Want<'a> = (&'a str, &'a [(u32, u32, &'a str)]);
    let sheets: [Want; 20] = [
        ("<?php // a\nb", &[(1, 7, "// a")]),
        ("<?php // it's", &[(1, 7, "// it's")]),
        ("<?php # \"a\n'b'", &[(1, 7, "# \"a")]),
        ("<?php #", &[(1, 7, "#")]),
        ("<?php # a ?> 'b # c", &[(1, 7, "# a ")]),
        ("<?php //?><?= //a", &[(1, 7, "//"), (1, 15, "//a")]),
        ("<?php #[a] # b", &[(1, 12, "# b")]),
        ("<?php /#a", &[(1, 8, "#a")]),
        ("<?php /* 'a\n?> \"*/ 'b'/**/", &[(1, 7, "/* 'a\n?> \"*/"), (2, 11, "/**/")]),
        ("<?php /*/*/ 'a'", &[(1, 7, "/*/*/")]),
        ("<?php /* a */*/ 'b'", &[(1, 7, "/* a */")]),
        ("<?php // a /*\n'*/'", &[(1, 7, "// a /*")]),
        // A CR ends a comment, as in PHP, though the library reads on; that of a CRLF is one of its bytes.
        ("<?php // a\rb\n# b\r\n", &[(1, 7, "// a"), (2, 1, "# b\r")]),
        // Only in a script: in no string, command, offset or block, and not outside of tags.
        ("// a # b /* c", &[]),
        ("<?php '// a' \"# b $c[/*] //\" `/* d` # e", &[(1, 37, "# e")]),
        ("<?php <<<'A'\n// a\n# b\n/* c\nA; // d", &[(5, 4, "// d")]),
        ("<?php <<<A\n// a\n{$b /* c\n*/} # d\nA; /* e */", &[(3, 5, "/* c\n*/"), (5, 4, "/* e */")]),
        ("<?php \"{$a /* b */} /* c */\" { // d\n}", &[(1, 12, "/* b */"), (1, 32, "// d")]),
        ("<?php `{$a # b\n}`", &[(1, 12, "# b")]),
        ("<?php \"${a /* b */}\" # c", &[(1, 12, "/* b */"), (1, 22, "# c")]),
    ];
    for (script, want) in sheets {
        let want = want.iter().map(|(line, column, text)| (*line, *column, text.to_string())).collect();
        assert_eq!(remarks(script), (want, true), "{:?}", script);
    }
}

/// As many as the list of a walk holds, and more.
#[test]
fn many_remarks_in_a_line() {
    for count in [1, 127, 128, 129, 600] {
        let script = format!("<?php {}// end\n# next", "/**/1;".repeat(count));
        let mut want: Vec<Placed> = (0..count).map(|at| (1, 7 + 6 * at as u32, "/**/".to_string())).collect();
        want.extend([(1, 7 + 6 * count as u32, "// end".to_string()), (2, 1, "# next".to_string())]);
        assert_eq!(remarks(&script), (want, true), "{} remarks", count);
    }
}

#[test]
fn a_remark_hides_a_block_and_opens_none() {
    let sheet = Sheet::read(b"<?php /* <<<'A'\no\nA; */ // <<<'B'\n<<<'C'\no\nC; # it's\n<<<'D'\no\noo\nD;");
    let labels: Vec<&[u8]> = sheet.blocks.iter().map(|block| &block.label[..]).collect();
    assert_eq!((labels, sheet.rows(), sheet.remarks.len()), (vec![&b"C"[..], b"D"], 3, 3));
    assert!(sheet.faults.is_empty());
}

#[test]
fn lines_have_no_breaks() {
    let lines = |script: &[u8]| -> Vec<Vec<u8>> {
        Sheet::read(script).remarks.iter().flat_map(|remark| remark.lines().map(<[u8]>::to_vec)).collect()
    };
    assert_eq!(lines(b"<?php /*\r\n\n a\rb\r\n*/"), [&b"/*"[..], b"", b" a\rb", b"*/"]);
    assert_eq!(lines(b"<?php // a\r\n# b\n// c"), [&b"// a"[..], b"# b", b"// c"]);
    // A comment ends before a CR that no LF follows.
    assert_eq!(lines(b"<?php # a\r?>\n<?= // b\r\r\n# c\r"), [&b"# a"[..], b"// b", b"# c"]);
}

/// PHP ends a remark at such a CR, and what follows it in the line is script.
#[test]
fn a_cr_without_an_lf_ends_a_remark() {
    let sheet = Sheet::read(b"<?php #a\r\n#b\r#c\r<<<'A'\no\nA;\n");
    let places: Vec<(Kind, u32, u32)> =
        sheet.warnings.iter().map(|warning| (warning.kind, warning.span.line, warning.span.column)).collect();
    assert_eq!(places, [(Kind::RemarkGoesOn, 2, 1), (Kind::RemarkGoesOn, 2, 4)]);
    let texts: Vec<&[u8]> = sheet.remarks.iter().map(|remark| &remark.text[..]).collect();
    assert_eq!(texts, [&b"#a\r"[..], b"#b", b"#c"]);
    assert_eq!(sheet.blocks.len(), 1);
}

#[test]
fn parts_stand_in_the_scripts_order() {
    let sheet = Sheet::read(b"<?php # 1\n<<<'A'\no\nA; /* 2 */ /* 3 */ <<<'B'\nB; <<<'C'\nC . f( // 4\n<<<'D'\nD);");
    let name = |part: Part| match part {
        Part::Block(block, number) => format!("{} {}", number, String::from_utf8_lossy(&block.label)),
        Part::Heredoc(heredoc) => format!("heredoc {}", String::from_utf8_lossy(&heredoc.label)),
        Part::Remark(remark) => String::from_utf8_lossy(&remark.text).into_owned(),
    };
    let names: Vec<String> = sheet.parts().into_iter().map(name).collect();
    assert_eq!(names, ["# 1", "1 A", "/* 2 */", "/* 3 */", "2 B", "3 C", "// 4", "4 D"]);
}

#[test]
fn a_remark_that_is_not_closed() {
    for (script, refused, opening, near, kept) in [
        ("<?php /*", (1, 9), (1, 7), "", 0),
        ("<?php // a\n 'b'; /* it's\n*\n/", (4, 2), (2, 7), "", 1),
        ("<?php /* a */ /* b /* c", (1, 24), (1, 15), "", 1),
        ("<?php /*/", (1, 10), (1, 7), "; the / right behind /* closes nothing", 0),
        ("<?php\n/*/ a\n/* b *", (3, 7), (2, 1), "; the / right behind /* closes nothing", 0),
        ("<?php \"{$a /* }\"", (1, 17), (1, 12), "", 0),
    ] {
        let sheet = Sheet::read(script.as_bytes());
        let fault = &sheet.faults[0];
        let (number, span) = (fault.refusal.number, fault.refusal.span);
        assert_eq!((number, (span.line, span.column)), (refusals::UNEXPECTED_END_OF_FILE, refused), "{:?}", script);
        let (line, column) = opening;
        let want =
            format!("The remark that opens at {}:{} is not closed: write */ where it ends{}.", line, column, near);
        assert_eq!(fault.detail.as_ref(), Some(&want), "{:?}", script);
        let mark = fault.opening.as_ref().expect("the line where the comment opens");
        assert_eq!((mark.line, mark.at + 1), (line, column as usize), "{:?}", script);
        assert!(mark.text[mark.at..].starts_with(b"/*"), "{:?}", script);
        assert_eq!(sheet.remarks.len(), kept, "{:?}", script);
    }
}

/// Behind a division no comment is open: the string is, or nothing.
#[test]
fn a_slash_that_is_no_comment() {
    for script in ["<?php 1 / 'a", "<?php 1 /'a"] {
        let detail = Sheet::read(script.as_bytes()).faults[0].detail.clone().unwrap_or_default();
        assert!(detail.contains("single-quoted string"), "{:?}: {}", script, detail);
    }
    assert_eq!(remarks("<?php /"), (Vec::new(), true));
}

/// What is put into remarks of one line; such words end none, and `?` never stands before `>`.
const WORDS: &[&str] = &["it's", "\"", "`", "<<<'A'", "/*", "*/", "//", "#", "{", "}", "kerb", "€", "?", "$a["];

/// What is put into remarks of many lines; `*` never stands before `/`.
const LINES: &[&str] =
    &["it's", "\"", "\n", "\r\n", "\n<<<'A'\n", "?>", "/*", "//", "#", "{", "kerb", "€", "* /", "\nA;"];

/// What is put between remarks: nothing in it is one.
const BETWEEN: &[&str] =
    &["\n", " ", "f(1);", "'// a'", "\"# b\"", "#[A]", "{", "<<<'A'\n// a\n# b\n/*\nA;\n", "?><?= "];

fn words(random: &mut Random, words: &[&str]) -> String {
    let count = random.below(5);
    (0..count).map(|_| format!(" {}", random.pick(words))).collect()
}

/// The line and column behind a text.
fn place_behind(text: &str) -> (u32, u32) {
    let line = text.rsplit('\n').next().unwrap_or(text);
    (text.matches('\n').count() as u32 + 1, line.len() as u32 + 1)
}

#[test]
fn remarks_come_back_as_they_were_put_in() {
    let mut random = Random::new(9);
    for _ in 0..4_000 {
        let mut script = "<?php ".to_string();
        let mut want = Vec::new();
        for _ in 0..random.below(10) {
            let (text, behind) = match random.below(4) {
                0 => (format!("//{}", words(&mut random, WORDS)), random.pick(&["\n", "?><?= "])),
                1 => (format!("#{}\r", words(&mut random, WORDS)), "\n"),
                2 => (format!("/*{} */", words(&mut random, LINES)), random.pick(&["", " ", "\n"])),
                _ => (String::new(), random.pick(BETWEEN)),
            };
            if !text.is_empty() {
                let (line, column) = place_behind(&script);
                want.push((line, column, text.clone()));
            }
            script.push_str(&text);
            script.push_str(behind);
        }
        assert_eq!(remarks(&script), (want, true), "{:?}", script);
    }
}
