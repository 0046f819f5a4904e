//! `check`: the lines that editors understand, the summary, JSON and the statuses.

mod common;

use std::fs;

use command::commands::check::findings;
use command::commands::output::{graver, status};
use command::reading::fault::Fault;
use command::reading::sheet::Sheet;
use command::reading::warning::{Kind, Warning};
use command::showing::text::Totals;
use common::{call, empty_folder, word};
use puretakoi::{refusals, Refusal, Span};

const GOOD: &str = "<?php <<<'A'\no\nA;\n";
const OPEN: &str = "<?php\n  <<<'A'\no\n";
const STRAY: &str = "<?php <<<'A'\n o\n  A;\n";

const OPEN_SAID: &str = "refused 1: something is still open where the script ends. Close the string, the text block, \
                         the command or the comment. The nowdoc block A that opens at 2:3 is not closed: no line \
                         behind it starts with its label as a word of its own.";
const STRAY_SAID: &str = "refused 13: a row starts with less than the closing line's indentation. Indent the row as \
                          the closing line is, or the closing line less. Each row owes the 2 spaces of the closing \
                          line, line 3; this row starts with 1 space, then ";

fn place(line: u32, column: u32, position: u32) -> Span {
    Span { line, column, position }
}

#[test]
fn a_line_for_each_refusal_and_the_summary() {
    let folder = empty_folder("check");
    for (name, script) in [("a.php", GOOD), ("b.php", OPEN), ("c.php", STRAY)] {
        fs::write(folder.join(name), script).unwrap();
    }
    let want = format!(
        "{0}/b.php:2:3: error: {1}\n{0}/c.php:2:2: error: {2}\"o\".\n\
         3 sheets, 1 block, 1 row: 1 ok, 0 warned, 2 refused\n",
        folder.display(),
        OPEN_SAID,
        STRAY_SAID
    );
    for words in [&["check"][..], &["check", "-j", "3"], &["check", "--strict"]] {
        let got = call(&[words, &[word(&folder)]].concat());
        assert_eq!((got.out.as_str(), got.status, got.errors.as_str()), (want.as_str(), Some(1), ""));
    }
}

#[test]
fn nothing_is_said_of_a_good_sheet() {
    let script = empty_folder("check-good").join("a.php");
    fs::write(&script, GOOD).unwrap();
    let got = call(&["check", word(&script)]);
    assert_eq!((got.out.as_str(), got.status), ("1 sheet, 1 block, 1 row: 1 ok, 0 warned, 0 refused\n", Some(0)));
    let got = call(&["check", "--json", word(&script)]);
    let want = "{\"findings\":[],\"ok\":1,\"warned\":0,\"refused\":0,\"unread\":0}\n";
    assert_eq!((got.out.as_str(), got.status), (want, Some(0)));
}

#[test]
fn findings_as_json() {
    let folder = empty_folder("check-json");
    fs::write(folder.join("b.php"), OPEN).unwrap();
    fs::write(folder.join("c.php"), STRAY).unwrap();
    let got = call(&["check", "--json", word(&folder), "nowhere.php"]);
    let object = |name: &str, place: &str, number: u32, kind: &str, message: &str| {
        format!(
            "\n{{\"path\":\"{}/{}\",{},\"word\":\"error\",\"number\":{},\"name\":\"{}\",\"message\":\"{}\"}}",
            folder.display(),
            name,
            place,
            number,
            kind,
            message
        )
    };
    let open = object("b.php", "\"line\":2,\"column\":3,\"position\":8", 1, "unexpected end of file", OPEN_SAID);
    let stray = format!("{}\\\"o\\\".", STRAY_SAID);
    let stray = object("c.php", "\"line\":2,\"column\":2,\"position\":14", 13, "stray indentation", &stray);
    let want = "\"ok\":0,\"warned\":0,\"refused\":2,\"unread\":1";
    assert_eq!(got.out, format!("{{\"findings\":[{},{}],{}}}\n", open, stray, want));
    assert_eq!((got.status, got.errors.lines().count()), (Some(2), 1));
}

/// A sheet with a warning behind a refusal that is a guess, which stands behind a sure one.
fn in_trouble() -> Sheet {
    let fault = |number, place, is_guess| Fault {
        refusal: Refusal { number, span: place },
        mark: None,
        detail: None,
        opening: None,
        suspect: None,
        place,
        is_guess,
    };
    let mut sheet = Sheet::read(GOOD.as_bytes());
    sheet.faults.push(fault(refusals::INVALID_OCTAL_ESCAPE, place(1, 3, 2), false));
    sheet.faults.push(fault(refusals::TOO_LARGE, place(4, 1, 30), true));
    sheet.warnings.push(Warning {
        kind: Kind::OpensNothing,
        span: place(2, 5, 10),
        mark: None,
        told: "<<<'A' and\na space open nothing".to_string(),
        read_on: String::new(),
        advice: "Take it away.".to_string(),
    });
    sheet
}

#[test]
fn all_findings_of_a_sheet_in_the_order_of_their_places() {
    let octal = "a.php:1:3: error: refused 3: an octal escape is over 377. Write at most 377, or choose octals as the \
                 manual has them: the low eight bits are then the byte.\n";
    let large =
        "a.php:4:1: error: refused 11: there are more than 65,536 bytes of script or pool, or more than 65,537 \
                 tokens. Divide the script into smaller ones. It stands behind another refusal, where the reading \
                 is a guess.\n";
    let told = "<<<'A' and\\x0Aa space open nothing. Take it away.";
    let lines =
        |strict| findings(&in_trouble(), strict).iter().map(|finding| finding.line("a.php")).collect::<String>();
    assert_eq!(lines(false), format!("{}a.php:2:5: warning: {}\n{}", octal, told, large));
    let strict = format!("a.php:2:5: error: {} It is a warning, refused by --strict.\n", told);
    assert_eq!(lines(true), format!("{}{}{}", octal, strict, large));
}

#[test]
fn a_warning_as_json_has_no_number() {
    let warning = &findings(&in_trouble(), false)[1];
    let object = warning.json("a.php");
    assert!(object.contains("\"word\":\"warning\",\"number\":null,\"name\":\"opens-nothing\","), "{}", object);
}

#[test]
fn the_gravest_status_is_given() {
    let totals = |good, warned, refused, unread| Totals { good, warned, refused, unread, ..Totals::default() };
    let cases = [((1, 0, 0, 0), 0), ((1, 1, 0, 0), 3), ((1, 1, 1, 0), 1), ((0, 1, 1, 1), 2), ((0, 0, 0, 0), 0)];
    for ((good, warned, refused, unread), want) in cases {
        assert_eq!(status(&totals(good, warned, refused, unread)), want);
    }
    for (one, other, want) in [(0, 0, 0), (0, 3, 3), (1, 3, 1), (2, 1, 2), (2, 3, 2)] {
        assert_eq!((graver(one, other), graver(other, one)), (want, want));
    }
}
