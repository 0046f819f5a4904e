//! `tokens`: rows with values for a person, as numbers and as JSON, whatever the pieces.

mod common;

use std::fs;

use command::showing::json;
use common::{call, call_on, sample, word};

const NAMES: [&str; 10] = [
    "remarks",
    "station-forecourt",
    "street-crossing",
    "street-names",
    "tabs-before-closer",
    "faulty/closer-missing",
    "faulty/closer-with-spaces-and-tabs",
    "faulty/label-with-letters",
    "faulty/remark-not-closed",
    "faulty/row-with-less-indentation",
];

/// A string, an indented nowdoc block and bytes that are no characters.
const SCRIPT: &[u8] = b"<?php 'a\"b' <<<'A'\n  o\n  A; \"\xff\xe9\"";

#[test]
fn numbers_are_the_rows_that_are_stored() {
    for name in NAMES {
        let (script, rows) = (sample(&format!("{}.php", name)), sample(&format!("{}.rows", name)));
        let rows = fs::read_to_string(rows).unwrap();
        let status = Some(i32::from(rows.lines().last().unwrap().starts_with("refused")));
        for piece in [&[][..], &["-p", "1"], &["--piece=7"], &["--piece", "99999999999999999999999"]] {
            let got = call(&[&["tokens", "--numbers"], piece, &[word(&script)]].concat());
            assert_eq!((got.out, got.status, got.errors.as_str()), (rows.clone(), status, ""), "{} {:?}", name, piece);
        }
    }
}

#[test]
fn a_line_for_a_person() {
    let want = "1:1 0..5 full open tag: \"<?php\"\n1:7 6..11 single-quoted string: \"a\\\"b\"\n\
                2:1 19..26 string part: \"  o\"\n2:1 19..26 end of text block, indented by spaces (2): \"A\"\n\
                3:6 28..32 double-quoted string: \"\\xff\\xe9\"\n5 tokens, read to the end, 32 bytes\n";
    let got = call_on(&["tokens"], SCRIPT);
    assert_eq!((got.out.as_str(), got.status), (want, Some(0)));
    let got = call_on(&["tokens", "--sheet"], SCRIPT);
    assert_eq!((got.out, got.status), (want.replace("\"  o\"", "\"o\""), Some(0)));
}

/// The token of an empty script has no bytes, and an end at 0 is not stated.
#[test]
fn an_empty_script() {
    let want = "1:1 0.. (end not stated) inline text: \"\"\n1 token, read to the end, 0 bytes\n";
    assert_eq!(call(&["tokens"]).out, want);
    assert_eq!(call(&["tokens", "--numbers"]).out, "1 1 1 0 0 0 0\nend 0\n");
    let json = call(&["tokens", "--json"]).out;
    assert!(json.contains("\"position\":0,\"end\":null,\"detail\":0,"), "{}", json);
}

#[test]
fn a_refusal_for_a_person() {
    let want =
        "1:1 0..5 full open tag: \"<?php\"\n1 token, then refused 1 at 1:9: something is still open where the script \
                ends. Close the string, the text block, the command or the comment.\n";
    let got = call_on(&["tokens"], b"<?php 'a");
    assert_eq!((got.out.as_str(), got.status, got.errors.as_str()), (want, Some(1), ""));
}

#[test]
fn one_object_as_json() {
    let token = |kind: &str, [line, column, position, end]: [u32; 4], rest: &str| {
        let place = format!("\"line\":{},\"column\":{},\"position\":{},\"end\":{}", line, column, position, end);
        format!("\n{{{},{},{}}}", kind, place, rest)
    };
    let wild = format!("\"detail\":0,\"value\":{}", json::bytes(b"\xff\xe9"));
    assert!(wild.ends_with(",\"hex\":\"ffe9\"}"), "{}", wild);
    let tokens = [
        token("\"kind\":2,\"name\":\"full open tag\"", [1, 1, 0, 5], "\"detail\":0,\"value\":{\"text\":\"<?php\"}"),
        token(
            "\"kind\":17,\"name\":\"single-quoted string\"",
            [1, 7, 6, 11],
            "\"detail\":0,\"value\":{\"text\":\"a\\\"b\"}",
        ),
        token("\"kind\":5,\"name\":\"string part\"", [2, 1, 19, 26], "\"detail\":0,\"value\":{\"text\":\"o\"}"),
        token(
            "\"kind\":12,\"name\":\"end of text block, indented by spaces\"",
            [2, 1, 19, 26],
            "\"detail\":2,\"value\":{\"text\":\"A\"}",
        ),
        token("\"kind\":18,\"name\":\"double-quoted string\"", [3, 6, 28, 32], &wild),
    ];
    let want = format!(
        "{{\"path\":\"standard input\",\"reading\":\"sheet\",\"octal\":\"rust\",\"tokens\":[{}],\
         \"end\":{{\"way\":\"finished\",\"position\":32}}}}\n",
        tokens.join(",")
    );
    for piece in ["1", "5", "4096"] {
        let got = call_on(&["tokens", "--sheet", "--json", "-p", piece, "-"], SCRIPT);
        assert_eq!((got.out, got.status), (want.clone(), Some(0)));
    }
}

#[test]
fn a_refusal_as_json() {
    let got = call_on(&["tokens", "--json"], b"<?php '");
    let end = "],\"end\":{\"way\":\"refused\",\"number\":1,\"name\":\"unexpected end of file\",\"line\":1,\
               \"column\":8,\"position\":7,\"meaning\":\"something is still open where the script ends\",\
               \"advice\":\"Close the string, the text block, the command or the comment.\",\"detail\":null}}\n";
    assert!(got.out.ends_with(end), "{}", got.out);
    assert!(
        got.out.starts_with("{\"path\":\"standard input\",\"reading\":\"ported\",\"octal\":\"rust\",\"tokens\":["),
        "{}",
        got.out
    );
    assert_eq!(got.status, Some(1));
}

#[test]
fn what_cannot_be_read() {
    for path in ["nowhere.php", "/"] {
        for form in [&[][..], &["--json"], &["--numbers"]] {
            let got = call(&[&["tokens"], form, &[path]].concat());
            assert_eq!((got.out.as_str(), got.status, got.errors.lines().count()), ("", Some(2), 1));
            assert!(got.errors.starts_with(&format!("puretakoi: can't read {}: ", path)), "{}", got.errors);
        }
    }
}
