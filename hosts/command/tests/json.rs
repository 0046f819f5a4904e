//! Sheets as JSON: all that is in them, and no byte lost.

mod common;

use command::reading::sheet::Sheet;
use command::showing::json::{array, bytes, sheet, string};
use common::json::{read, text, Value};
use common::troubled::{guessed, warned};

fn json(script: &[u8]) -> Value {
    read(&sheet("a.php", &Sheet::read(script))).unwrap()
}

#[test]
fn a_good_sheet_as_a_whole() {
    let script = b"<?php // a\n$b = <<<'A'\n\to\t\n\t\n\tA;";
    let want = "{\"path\":\"a.php\",\"verdict\":\"ok\",\"bytes\":32,\
                \"blocks\":[{\"line\":2,\"column\":6,\"position\":16,\"label\":{\"text\":\"A\"},\
                \"indentation\":{\"kind\":\"tabs\",\"amount\":1},\"guess\":false,\
                \"rows\":[{\"text\":\"o\\t\"},{\"text\":\"\"}]}],\
                \"heredocs\":[],\
                \"remarks\":[{\"line\":1,\"column\":7,\"position\":6,\"text\":\"// a\",\"guess\":false}],\
                \"notes\":[],\"warnings\":[],\"refusals\":[]}";
    assert_eq!(sheet("a.php", &Sheet::read(script)), want);
}

#[test]
fn bytes_that_are_no_characters_are_kept_in_hex() {
    assert_eq!(bytes("ä→".as_bytes()), "{\"text\":\"ä→\"}");
    assert_eq!(bytes(b"a\xFF\xE2\x82b"), "{\"text\":\"a\u{FFFD}\u{FFFD}b\",\"hex\":\"61ffe28262\"}");
    // A replacement character that is really there has no hex beside it.
    assert_eq!(bytes("\u{FFFD}".as_bytes()), "{\"text\":\"\u{FFFD}\"}");
    let got = json(b"<?php //\xFE\n<<<'\xE9'\n\xFF\n\xE9;");
    assert_eq!(got.get("blocks").at(0).get("label").get("hex"), &text("e9"));
    assert_eq!(got.get("blocks").at(0).get("rows").at(0).get("hex"), &text("ff"));
    assert_eq!(got.get("remarks").at(0).get("hex"), &text("2f2ffe"));
}

#[test]
fn what_is_not_seen_is_escaped() {
    assert_eq!(string("\"\\/\n\t\r\0\x1B\x7F"), "\"\\\"\\\\/\\n\\t\\u000d\\u0000\\u001b\\u007f\"");
    assert_eq!(string("\u{85}\u{202E}\u{2028}\u{E0041}é"), "\"\\u0085\\u202e\\u2028\\udb40\\udc41é\"");
    assert_eq!(array([string("a"), "1".to_string()].into_iter()), "[\"a\",1]");
}

#[test]
fn refusals_have_both_places() {
    let got = json(b"<?php\n$a = <<<'A'\n  o\n");
    assert_eq!(got.get("verdict"), &text("refused"));
    assert_eq!(got.get("blocks"), &Value::List(Vec::new()));
    let refusal = got.get("refusals").at(0);
    let place = |value: &Value| ["line", "column", "position"].map(|name| value.get(name).clone());
    assert_eq!(refusal.get("number"), &Value::Number(1));
    assert_eq!(refusal.get("name"), &text("unexpected end of file"));
    assert_eq!(place(refusal), [4, 1, 22].map(Value::Number));
    assert_eq!(place(refusal.get("look")), [2, 6, 11].map(Value::Number));
    assert_eq!(refusal.get("meaning"), &text("something is still open where the script ends"));
    assert_eq!(refusal.get("advice"), &text("Close the string, the text block, the command or the comment."));
    assert!(
        matches!(refusal.get("detail"), Value::Text(told) if told.starts_with("The nowdoc block A that opens at 2:6 "))
    );
    assert_eq!(refusal.get("guess"), &Value::Bool(false));
}

#[test]
fn warnings_heredocs_and_guesses() {
    let got = read(&sheet("a\"b.php", &warned())).unwrap();
    assert_eq!((got.get("path"), got.get("verdict")), (&text("a\"b.php"), &text("warned")));
    let warning = got.get("warnings").at(0);
    assert_eq!((warning.get("kind"), warning.get("line")), (&text("opens-nothing"), &Value::Number(2)));
    assert_eq!(warning.get("told"), &text("<<<\"RELIEF\" opens no block"));
    assert_eq!(warning.get("advice"), &text("Write <<<'RELIEF'."));
    let advice = "It is read as a block here. Take away the blanks before the label.";
    assert_eq!(json(b"<?php <<< 'A'\no\nA;").get("warnings").at(0).get("advice"), &text(advice));
    let heredoc = got.get("heredocs").at(0);
    assert_eq!((heredoc.get("first"), heredoc.get("last")), (&Value::Number(6), &Value::Number(9)));
    assert_eq!(heredoc.get("label").get("text"), &text("EOD"));
    assert_eq!(got.get("blocks").at(0).get("indentation").get("kind"), &text("spaces"));
    let guessed = read(&sheet("a.php", &guessed())).unwrap();
    for list in ["blocks", "heredocs"] {
        assert_eq!(guessed.get(list).at(0).get("guess"), &Value::Bool(true), "{}", list);
    }
    let guesses = [0, 1].map(|at| guessed.get("refusals").at(at).get("guess").clone());
    assert_eq!(guesses, [Value::Bool(false), Value::Bool(true)]);
    assert_eq!(guessed.get("refusals").at(0).get("detail"), &Value::Null);
}

#[test]
fn the_reader_finds_faults() {
    assert_eq!(read("{\"a\":[1,\"\\u0041\"]}").unwrap().get("a").at(1), &text("A"));
    for wrong in [
        "",
        "{",
        "[1,]",
        "[,]",
        "{\"a\"}",
        "{\"a\":1,}",
        "\"\n\"",
        "\"\\x\"",
        "01",
        "1 ",
        "{\"a\":1,\"a\":2}",
        "\"\\ud800\"",
    ] {
        assert!(read(wrong).is_err(), "{}", wrong);
    }
}
