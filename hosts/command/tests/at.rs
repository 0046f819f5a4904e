//! `at`: the token, the row and the cell at a place of a script, held to answers that were written by hand.

mod common;

use common::{call, call_on, sample, word, Run};

/// A string, a sign and a number.
const STRING: &[u8] = b"<?php 'kerb' . 12;\n";

/// A block of three rows, the second of them empty.
const BLOCK: &[u8] = b"<?php\n$a = <<<'ROAD'\n  o .\n\n   #\n  ROAD;\n";

/// A heredoc with a variable.
const HEREDOC: &[u8] = b"<?php <<<E\nkerb\n $a and\nmore\n E;\n";

/// The block's text and its end, as neighbours of a byte.
const AFTER_ROWS: &str = "After token 2 of 3, at byte 21: 3:1 string part: 7 bytes\n";
const BEFORE_END: &str = "Before token 3 of 3, at byte 21: 3:1 end of text block, indented by spaces (2): \"ROAD\"\n";

/// What is said where the text before the token that is found is meant.
const LEAD: &str =
    "2 records were looked at. This leads to token 3 (end of text block, indented by spaces), which bears \
                    the place of the text before it.\n";

/// What `at` must say of a place of a script on standard input, and its status.
fn check(script: &[u8], place: &str, want: &str, status: i32) {
    let got = call_on(&["at", "-", place], script);
    assert_eq!(got.out, format!("standard input at {}", want), "{}", place);
    assert_eq!((got.errors.as_str(), got.status), ("", Some(status)), "{}", place);
}

/// What is said of a place after the first line, without the line of the script.
fn lines(script: &[u8], place: &str) -> Vec<String> {
    let out = call_on(&["at", "-", place], script).out;
    out.lines().filter(|line| !line.contains(" |")).skip(1).map(str::to_string).collect()
}

/// A place that the script does not have must be told in this line.
fn check_past(script: &[u8], place: &str, want: &str) {
    let got = call_on(&["at", "-", place], script);
    assert_eq!(got, Run { status: Some(2), out: String::new(), errors: format!("puretakoi: {}\n", want) }, "{}", place);
}

/// Of three tokens the second is looked at first: its byte is 6. Then the third: its byte is 15.
#[test]
fn a_token() {
    let want = "1:9, byte 8: \"e\"\n1 |<?php 'kerb' . 12;\n  |        ^\n\
                In token 2 of 3, at byte 6: 1:7 single-quoted string: \"kerb\"\nIt ends before 1:13, byte 12.\n\
                2 records were looked at.\n";
    check(STRING, "1:9", want, 0);
    check(STRING, "8", want, 0);
    for (place, token, end) in [
        ("0", "1 of 3, at byte 0: 1:1 full open tag: \"<?php\"", "1:6, byte 5"),
        ("4", "1 of 3, at byte 0: 1:1 full open tag: \"<?php\"", "1:6, byte 5"),
        ("1:7", "2 of 3, at byte 6: 1:7 single-quoted string: \"kerb\"", "1:13, byte 12"),
        ("1:12", "2 of 3, at byte 6: 1:7 single-quoted string: \"kerb\"", "1:13, byte 12"),
        ("1:16", "3 of 3, at byte 15: 1:16 integer: \"12\"", "1:18, byte 17"),
        ("16", "3 of 3, at byte 15: 1:16 integer: \"12\"", "1:18, byte 17"),
    ] {
        let got = call_on(&["at", "-", place], STRING).out;
        let want = format!("\nIn token {}\nIt ends before {}.\n2 records were looked at.\n", token, end);
        assert!(got.contains(&want), "{}: {}", place, got);
    }
}

#[test]
fn text_that_no_token_has() {
    let want = "1:13, byte 12: a space\n1 |<?php 'kerb' . 12;\n  |            ^\nNo token has this byte.\n\
                After token 2 of 3, at byte 6: 1:7 single-quoted string: \"kerb\"\n\
                Before token 3 of 3, at byte 15: 1:16 integer: \"12\"\n2 records were looked at.\n";
    check(STRING, "1:13", want, 0);
    let want = "1:19, byte 18: a line break\n1 |<?php 'kerb' . 12;\n  |                  ^\nNo token has this byte.\n\
                After token 3 of 3, at byte 15: 1:16 integer: \"12\"\n2 records were looked at.\n";
    check(STRING, "1:19", want, 0);
}

#[test]
fn the_end_of_the_script() {
    let want = "2:1, byte 19: the end of the script\n2 |\n  |^\nNo token is at the end.\n\
                After token 3 of 3, at byte 15: 1:16 integer: \"12\"\n2 records were looked at.\n";
    check(STRING, "2:1", want, 0);
    check(STRING, "19", want, 0);
    let want = "1:1, byte 0: the end of the script\n1 |\n  |^\nNo token is at the end.\n\
                After token 1 of 1, at byte 0: 1:1 inline text: \"\"\n1 record was looked at.\n";
    check(b"", "0", want, 0);
    check(b"", "1:1", want, 0);
    let want = "1:8, byte 7: the end of the script\n1 |<?php 1\n  |       ^\nNo token is at the end.\n\
                After token 2 of 2, at byte 6: 1:7 integer: \"1\"\n1 record was looked at.\n";
    check(b"<?php 1", "1:8", want, 0);
}

#[test]
fn places_that_the_script_has_not() {
    let past = |place: &str, told: &str| {
        let end = "is past its end: name a place up to 2:1, byte 19";
        check_past(STRING, place, &format!("standard input has 1 line, 19 bytes, and {} {}", told, end));
    };
    // Numbers that are too large to hold are told as they were typed.
    for place in ["3:1", "18446744073709551615:1", "99999999999999999999:1", "003:01"] {
        past(place, place);
    }
    for place in ["20", "99999999999999999999", "0020"] {
        past(place, &format!("byte {}", place));
    }
    let line =
        "line 1 of standard input has 18 bytes and a line break, and 1:20 is past that: name a column from 1 to 19";
    check_past(STRING, "1:20", line);
    check_past(STRING, "1:99999999999999999999", &line.replace("1:20", "1:99999999999999999999"));
    let line = "line 2 of standard input, the last, has 0 bytes, and 2:2 is past that: name a column from 1 to 1";
    check_past(STRING, "2:2", line);
    let line = "line 1 of standard input, the last, has 7 bytes, and 1:9 is past that: name a column from 1 to 8";
    check_past(b"<?php 1", "1:9", line);
    let line =
        "line 1 of standard input has 8 bytes and a line break, and 1:11 is past that: name a column from 1 to 10";
    check_past(b"<?php 1;\r\n2", "1:11", line);
}

/// Both tokens of the block stand at byte 21: the second one is found, after two looks. The rows end before the break
/// that is left out, and their step after the label.
#[test]
fn cells_of_a_block() {
    let rows = "    \"o .\\n\"\n    \"\\n\"\n    \" #\"\n";
    let end = "It ends before 5:5, byte 32; its step ends before 6:7, byte 39.\n";
    let token = format!("In token 2 of 3, at byte 21: 3:1 string part:\n{}{}{}", rows, end, LEAD);
    let name = "Block 1 at 2:6, label ROAD: row";
    check(BLOCK, "3:3", &format!("3:3, byte 23: \"o\"\n{} 1, cell 1\n1 |o .\n  |^\n{}", name, token), 0);
    check(BLOCK, "3:4", &format!("3:4, byte 24: a space\n{} 1, cell 2\n1 |o .\n  | ^\n{}", name, token), 0);
    check(BLOCK, "31", &format!("5:4, byte 31: \"#\"\n{} 3, cell 2\n3 | #\n  | ^\n{}", name, token), 0);
    let comes_off = format!("{} 1, its indentation, which comes off", name);
    check(BLOCK, "3:2", &format!("3:2, byte 22: a space\n{}\n3 |  o .\n  | ^\n{}", comes_off, token), 0);
    let after = format!("{} 2, the line break after it", name);
    check(BLOCK, "4:1", &format!("4:1, byte 27: a line break\n{}\n4 |\n  |^\n{}", after, token), 0);
}

#[test]
fn other_parts_of_a_block() {
    let name = "Block 1 at 2:6, label ROAD:";
    let end = "token 3 of 3, at byte 21: 3:1 end of text block, indented by spaces (2): \"ROAD\"\n";
    let ends = "It ends before 6:7, byte 39.\n";
    let want = format!(
        "5:5, byte 32: a line break\n{} row 3, the line break after it\n5 |   #\n  |    ^\n\
         No token has this line break: it is left out.\n{}{}{}",
        name, AFTER_ROWS, BEFORE_END, LEAD
    );
    check(BLOCK, "5:5", &want, 0);
    let want = format!(
        "6:2, byte 34: a space\n{} the indentation of its closing line\n6 |  ROAD;\n  | ^\n\
         In the indentation of the closing line, {}{}2 records were looked at.\n",
        name, end, ends
    );
    check(BLOCK, "6:2", &want, 0);
    let want = format!(
        "6:6, byte 38: \"D\"\n{} its closing label\n6 |  ROAD;\n  |     ^\nIn {}\
         It bears the place of the text before it, and begins at 6:3, byte 35.\n{}2 records were looked at.\n",
        name, end, ends
    );
    check(BLOCK, "6:6", &want, 0);
    let want = format!(
        "2:15, byte 20: a line break\n{} its opening\n2 |$a = <<<'ROAD'\n  |              ^\nNo token has this byte.\n\
         After token 1 of 3, at byte 0: 1:1 full open tag: \"<?php\"\n\
         Before token 2 of 3, at byte 21: 3:1 string part: 7 bytes\n2 records were looked at.\n",
        name
    );
    check(BLOCK, "2:15", &want, 0);
    let want = format!(
        "6:7, byte 39: \";\"\n6 |  ROAD;\n  |      ^\nNo token has this byte.\nAfter {}2 records were looked at.\n",
        end
    );
    check(BLOCK, "6:7", &want, 0);
}

/// A block without a row, and one whose only row is blanks that come off: they have no string part.
#[test]
fn blocks_without_text() {
    let none = lines(b"<?php <<<'A'\n A;", "2:1");
    assert_eq!(none[0], "Block 1 at 1:7, label A: the indentation of its closing line");
    assert!(none[1].starts_with("In the indentation of the closing line, token 2 of 2, at byte 13: "), "{:?}", none);
    let blank = lines(b"<?php <<<'A'\n \n  A;", "2:1");
    let told = [
        "Block 1 at 1:7, label A: row 1, its indentation, which comes off",
        "No token has this byte.",
        "After token 1 of 2, at byte 0: 1:1 full open tag: \"<?php\"",
        "Before token 2 of 2, at byte 13: 2:1 end of text block, indented by spaces (2): \"A\"",
        "1 record was looked at. This leads to token 2 (end of text block, indented by spaces), which bears the place \
         of what is left out before it.",
    ];
    assert_eq!(blank, told);
    let bears = "It bears the place of what is left out before it, and begins at";
    assert_eq!(lines(b"<?php <<<'A'\n A;", "2:2")[2], format!("{} 2:2, byte 14.", bears));
    assert_eq!(lines(b"<?php <<<'A'\n \n  A;", "3:3")[2], format!("{} 3:3, byte 17.", bears));
    assert_eq!(lines(b"<?php <<<'A'\n \n  A;", "2:2")[1], "No token has this line break: it is left out.");
}

/// A character is a cell, whatever its bytes; a mark has the cell of the character before it; so has a byte one that
/// is no character. A CRLF is one line break.
#[test]
fn characters_of_a_row() {
    let script = b"<?php <<<'A'\r\n\xE2\x82\xACe\xCC\x81x\t\xFF\r\no\r\nA;";
    let told = |byte: usize| {
        let out = call_on(&["at", "-", &byte.to_string()], script).out;
        out.lines().skip(1).take(3).map(str::to_string).collect::<Vec<_>>()
    };
    let row = "1 |€e\u{301}x→\\xFF".to_string();
    for (bytes, cell, caret) in
        [(14..17, 1, ""), (17..20, 2, " "), (20..21, 3, "  "), (21..22, 4, "   "), (22..23, 5, "    ")]
    {
        let name = format!("Block 1 at 1:7, label A: row 1, cell {}", cell);
        for byte in bytes {
            assert_eq!(told(byte), [name.clone(), row.clone(), format!("  |{}^", caret)], "byte {}", byte);
        }
    }
    for (byte, row) in [(23, 1), (24, 1), (26, 2), (27, 2)] {
        assert_eq!(told(byte)[0], format!("Block 1 at 1:7, label A: row {}, the line break after it", row));
    }
    assert_eq!(told(25)[0], "Block 1 at 1:7, label A: row 2, cell 1");
    assert_eq!(call_on(&["at", "-", "15"], script).out.lines().next(), Some("standard input at 2:2, byte 15: \"€\""));
}

/// Of five tokens the third is looked at first: its byte is 11. Both of a step bear the place where it began.
#[test]
fn a_heredoc() {
    let part = "In token 2 of 5, at byte 11: 2:1 string part:\n    \"kerb\\n\"\n    \" \"\n";
    let lead =
        "3 records were looked at. This leads to token 3 (variable), which bears the place of the text before it.\n";
    let end = "It ends before 3:2, byte 17; its step ends before 3:4, byte 19.";
    let line = |number| format!("{}\nIt is line {} of its 2 lines, in the heredoc E.\n", end, number);
    check(HEREDOC, "12", &format!("2:2, byte 12: \"e\"\n2 |kerb\n  | ^\n{}{}{}", part, line(1), lead), 0);
    check(HEREDOC, "16", &format!("3:1, byte 16: a space\n3 | $a and\n  |^\n{}{}{}", part, line(2), lead), 0);
    let want = "3:3, byte 18: \"a\"\n3 | $a and\n  |  ^\nIn token 3 of 5, at byte 11: 2:1 variable: \"$a\"\n\
                It bears the place of the text before it, and begins at 3:2, byte 17.\n\
                It ends before 3:4, byte 19.\nIt is in the heredoc E.\n3 records were looked at.\n";
    check(HEREDOC, "18", want, 0);
    let end = "token 5 of 5, at byte 19: 3:4 end of text block, indented by spaces (1): \"E\"\n";
    let want = format!(
        "4:5, byte 28: a line break\n4 |more\n  |    ^\nNo token has this line break: it is left out.\n\
         After token 4 of 5, at byte 19: 3:4 string part: 9 bytes\nBefore {}2 records were looked at. This leads to \
         token 5 (end of text block, indented by spaces), which bears the place of the text before it.\n",
        end
    );
    check(HEREDOC, "28", &want, 0);
    let want = format!(
        "5:1, byte 29: a space\n5 | E;\n  |^\nIn the indentation of the closing line, {}\
         It ends before 5:3, byte 31.\n2 records were looked at.\n",
        end
    );
    check(HEREDOC, "29", &want, 0);
    let want = format!(
        "5:2, byte 30: \"E\"\n5 | E;\n  | ^\nIn {}\
         It bears the place of the text before it, and begins at 5:2, byte 30.\nIt ends before 5:3, byte 31.\n\
         It is the closing label, in the heredoc E.\n2 records were looked at.\n",
        end
    );
    check(HEREDOC, "30", &want, 0);
}

/// The line break before a closing line is left out: of a CRLF both bytes in a sheet's block, the LF alone in a
/// heredoc, whose text keeps the CR. In a heredoc the LF before a variable is left out too; where an escape wrote it,
/// its bytes are still told as the text's.
#[test]
fn line_breaks_that_are_left_out() {
    let left_out = "No token has this line break: it is left out.";
    let (block, heredoc) = (b"<?php <<<'A'\r\no\r\nA;", b"<?php <<<A\r\no\r\nA;");
    assert_eq!((lines(block, "15")[1].as_str(), lines(block, "16")[1].as_str()), (left_out, left_out));
    let part = "In token 2 of 3, at byte 12: 2:1 string part: \"o\\r\"";
    assert_eq!((lines(heredoc, "13")[0].as_str(), lines(heredoc, "14")[0].as_str()), (part, left_out));
    let told = lines(b"<?php <<<A\no\n$x\nA;", "12");
    assert_eq!(told[0], left_out);
    assert_eq!(told[1], "After token 2 of 4, at byte 11: 2:1 string part: \"o\"");
    assert_eq!(told[2], "Before token 3 of 4, at byte 11: 2:1 variable: \"$x\"");
    let escaped = b"<?php <<<A\nkerb\\n$x\nA;";
    for place in ["2:5", "2:6"] {
        assert_eq!(lines(escaped, place)[0], "In token 2 of 4, at byte 11: 2:1 string part: \"kerb\"", "{}", place);
    }
    let alone = lines(b"<?php <<<A\n\n$x\nA;", "3:1");
    assert_eq!(alone[0], "In token 2 of 3, at byte 11: 2:1 variable: \"$x\"");
    assert_eq!(alone[1], "It bears the place of what is left out before it, and begins at 3:1, byte 12.");
}

/// A string with a variable, whose first part has the quote; a command; a remark and a text of several lines.
#[test]
fn other_texts() {
    let token = |script: &[u8], byte: usize| lines(script, &byte.to_string());
    let string = b"<?php \"a $b c\";";
    assert_eq!(token(string, 6)[0], "In token 2 of 5, at byte 6: 1:7 string part: \"a \"");
    assert_eq!(token(string, 6)[1], "It ends before 1:10, byte 9.");
    assert_eq!(token(string, 10)[0], "In token 3 of 5, at byte 9: 1:10 variable: \"$b\"");
    assert_eq!(token(string, 12)[0], "In token 4 of 5, at byte 11: 1:12 string part: \" c\"");
    assert_eq!(token(string, 12)[1], "It ends before 1:14, byte 13; its step ends before 1:15, byte 14.");
    assert_eq!(token(string, 13)[0], "In token 5 of 5, at byte 11: 1:12 double quote: \"\\\"\"");
    assert_eq!(token(string, 13)[1], "It bears the place of the text before it, and begins at 1:14, byte 13.");
    let quotes = call_on(&["at", "-", "13"], string).out;
    assert_eq!(quotes.lines().next(), Some("standard input at 1:14, byte 13: a double quote"));
    let command = b"<?php `ls ${a}`;";
    assert_eq!(token(command, 6)[0], "No token has this byte.");
    assert_eq!(token(command, 9)[0], "In token 2 of 5, at byte 7: 1:8 string part: \"ls \"");
    assert_eq!(token(command, 10)[0], "In token 3 of 5, at byte 7: 1:8 dollar and left brace: \"${\"");
    assert_eq!(token(command, 11)[0], "In token 3 of 5, at byte 7: 1:8 dollar and left brace: \"${\"");
    assert_eq!(token(command, 12)[0], "In token 4 of 5, at byte 12: 1:13 identifier: \"a\"");
    assert_eq!(token(command, 14)[0], "In token 5 of 5, at byte 14: 1:15 backtick: \"`\"");
    let remark = b"a\nb<?php /* c\nd */";
    assert_eq!(token(remark, 2)[..2], ["In token 1 of 3, at byte 0: 1:1 inline text:", "    \"a\\n\""]);
    assert_eq!(token(remark, 2)[3], "It ends before 2:2, byte 3; its step ends before 2:7, byte 8.");
    assert_eq!(token(remark, 2)[4], "It is line 2 of its 2 lines in the script.");
    assert_eq!(token(remark, 4)[0], "In token 2 of 3, at byte 3: 2:2 full open tag: \"<?php\"");
    assert_eq!(token(remark, 4)[1], "It ends before 2:7, byte 8.");
    let end = "It ends before 3:5, byte 18.";
    assert_eq!(token(remark, 13)[3..5], [end, "It is line 1 of its 2 lines in the script."]);
    assert_eq!(token(remark, 14)[3..5], [end, "It is line 2 of its 2 lines in the script."]);
}

#[test]
fn standard_input_and_a_file_are_told_alike() {
    let path = sample("tabs-before-closer.php");
    let script = std::fs::read(&path).unwrap();
    for place in ["1:1", "10:9", "24:2", "606"] {
        let (named, unnamed) = (call(&["at", word(&path), place]), call_on(&["at", "-", place], &script));
        assert_eq!(named.out, unnamed.out.replace("standard input", word(&path)));
        assert_eq!((named.status, unnamed.status), (Some(0), Some(0)));
    }
    let got = call(&["at", word(&path), "22:11"]).out;
    let want = "22:11, byte 423: \"|\"\nBlock 1 at 7:9, label RELIEF: row 15, cell 9\n\
                15 |~~~~~~~~|→→|~~~~~~~~\n   |        ^\n";
    assert!(got.contains(want), "{}", got);
}

#[test]
fn what_cannot_be_read() {
    for path in ["nowhere.php", "/"] {
        let got = call(&["at", path, "1:1"]);
        assert_eq!((got.out.as_str(), got.status, got.errors.lines().count()), ("", Some(2), 1));
        assert!(got.errors.starts_with(&format!("puretakoi: can't read {}: ", path)), "{}", got.errors);
    }
}
