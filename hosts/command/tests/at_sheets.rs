//! `at` on whole sheets: what it says agrees with what `view` shows; refusals, warnings, JSON, and wild bytes.

mod common;

use std::collections::BTreeSet;
use std::fs;
use std::path::PathBuf;

use cases::pieces;
use cases::random::Random;
use command::commands::pointed::Pointed;
use command::commands::pointed_json;
use command::reading::form::with_lf_lines;
use command::reading::sheet::Sheet;
use command::reading::warning::Warning;
use common::json::{self, text, Value};
use common::{call, call_on, empty_folder, run, sample, scripts, tests_folder, word};
use puretakoi::{Choices, Octal, Reading, TokenList};

/// The rows that `view` prints, block by block.
fn shown_rows(path: &str) -> Vec<Vec<String>> {
    let mut blocks: Vec<Vec<String>> = Vec::new();
    let mut is_block = false;
    for line in run(&[path]).out.lines() {
        match line.split_once(" |") {
            _ if line.starts_with("Block ") => {
                is_block = true;
                blocks.push(Vec::new());
            }
            Some((number, row)) if is_block && number.trim().parse::<usize>().is_ok() => {
                blocks.last_mut().unwrap().push(row.to_string());
            }
            _ => is_block = false,
        }
    }
    blocks
}

/// The number after a word of a line.
fn number_after(line: &str, before: &str) -> Option<usize> {
    let rest = line.split_once(before)?.1;
    rest.split(|letter: char| !letter.is_ascii_digit()).next()?.parse().ok()
}

/// Whether each column of a row is one byte of the script.
fn is_plain(row: &str) -> bool {
    row.chars().all(|letter| letter == '→' || (letter.is_ascii() && letter != '\\'))
}

/// At every byte of a script: where a cell is told, `view` shows the byte at that row and cell, and the row; and every
/// cell that `view` shows is told of one byte. How many cells that were.
fn check_cells(path: &PathBuf) -> usize {
    let script = fs::read(path).unwrap();
    let (sheet, blocks) = (Sheet::read(&script), shown_rows(word(path)));
    let lines = with_lf_lines(&script).unwrap_or_else(|| script.clone());
    let tokens = TokenList::new(&lines, Choices { nowdocs: Reading::Sheet, octals: Octal::Manual });
    let mut met = BTreeSet::new();
    for (byte, here) in script.iter().enumerate() {
        let told = Pointed::new(&lines, &tokens, Some(&sheet), byte).text("a.php", None);
        let told: Vec<&str> = told.lines().collect();
        let block = told.get(1).filter(|line| line.contains(", cell ")).and_then(|line| number_after(line, "Block "));
        if let Some(block) = block {
            let (row, cell) = (number_after(told[1], ": row ").unwrap(), number_after(told[1], ", cell ").unwrap());
            let shown = &blocks[block - 1][row - 1];
            assert_eq!(told[2], format!("{} |{}", row, shown), "byte {} of {:?}", byte, path);
            if is_plain(shown) {
                let here = if *here == b'\t' { '→' } else { char::from(*here) };
                assert_eq!(shown.chars().nth(cell - 1), Some(here), "byte {} of {:?}", byte, path);
                let caret = told[3].split_once('|').unwrap().1;
                assert_eq!(caret, format!("{}^", " ".repeat(cell - 1)), "byte {} of {:?}", byte, path);
                assert!(met.insert((block, row, cell)), "byte {} of {:?}", byte, path);
            }
        }
    }
    let plain = blocks.iter().flatten().filter(|row| is_plain(row));
    assert_eq!(met.len(), plain.map(|row| row.chars().count()).sum::<usize>(), "{:?}", path);
    met.len()
}

#[test]
fn every_byte_of_every_sample() {
    let folders = [sample(""), sample("faulty"), tests_folder().join("sheets")];
    let cells: Vec<usize> = folders.into_iter().flat_map(scripts).map(|path| check_cells(&path)).collect();
    assert!(cells.len() > 50 && cells.iter().sum::<usize>() > 2_500, "{:?}", cells);
}

/// Where rows begin and end, told from the text of three sheets: the rows stand after the line of `<<<'LABEL'` and
/// before that of LABEL; as many bytes as indent the latter come off each line.
#[test]
fn parts_of_sheets_by_their_own_text() {
    for (name, label, indentation) in
        [("tabs-before-closer", "RELIEF", "\t\t"), ("street-names", "EOT", "    "), ("street-crossing", "RELIEF", "")]
    {
        let script = fs::read_to_string(sample(&format!("{}.php", name))).unwrap();
        let opening = script.find(&format!("<<<'{}'\n", label)).unwrap();
        let body = opening + label.len() + 6;
        let closing = body + script[body..].find(&format!("\n{}{};", indentation, label)).unwrap() + 1;
        let (sheet, tokens) = (Sheet::read(script.as_bytes()), TokenList::new(script.as_bytes(), Reading::Sheet));
        let told = |byte: usize| {
            let text = Pointed::new(script.as_bytes(), &tokens, Some(&sheet), byte).text("a.php", None);
            text.lines().nth(1).unwrap().split_once(&format!(", label {}: ", label)).map(|(_, part)| part.to_string())
        };
        assert_eq!(told(opening - 1), None);
        (opening..body).for_each(|byte| assert_eq!(told(byte).as_deref(), Some("its opening")));
        let mut byte = body;
        for (line, row) in script[body..closing].split_inclusive('\n').zip(1..) {
            for at in 0..line.len() {
                let want = match at.checked_sub(indentation.len()) {
                    _ if at == line.len() - 1 => format!("row {}, the line break after it", row),
                    None => format!("row {}, its indentation, which comes off", row),
                    Some(before) => format!("row {}, cell {}", row, before + 1),
                };
                assert_eq!(told(byte + at), Some(want), "byte {} of {}", byte + at, name);
            }
            byte += line.len();
        }
        let label_at = closing + indentation.len();
        (closing..label_at).for_each(|byte| assert!(told(byte).unwrap().starts_with("the indentation of")));
        (label_at..label_at + label.len())
            .for_each(|byte| assert_eq!(told(byte).as_deref(), Some("its closing label")));
        assert_eq!(told(label_at + label.len()), None);
    }
}

#[test]
fn a_refused_script() {
    let script = b"<?php 1 'kerb";
    let refusal =
        "standard input:1:9: error: refused 1: something is still open where the script ends. Close the string, \
                   the text block, the command or the comment. The single-quoted string that opens at 1:9 is not \
                   closed: the quote at its end is missing, or a quote before it is one too many.\n";
    let told = |place: &str, sign: &str, gap: &str| {
        format!(
            "standard input at {}: {}\n1 |<?php 1 'kerb\n  |{}^\nNo token: nothing is read from 1:9 on.\n\
             After token 2 of 2, at byte 6: 1:7 integer: \"1\"\n1 record was looked at.\n{}",
            place, sign, gap, refusal
        )
    };
    for (place, byte, sign) in [("1:9", 8, "\"'\""), ("1:11", 10, "\"e\""), ("1:14", 13, "the end of the script")] {
        let got = call_on(&["at", "-", place], script);
        let want = told(&format!("{}, byte {}", place, byte), sign, &" ".repeat(byte));
        assert_eq!((got.out, got.status), (want, Some(1)), "{}", place);
    }
    assert_eq!(call_on(&["at", "-", "1:8"], script).status, Some(0));
    assert!(call_on(&["check", "-"], script).out.starts_with(refusal));
}

/// A refusal of a block: nothing of it is read. What `view` reads after it is told as `view` shows it.
#[test]
fn what_is_read_after_a_refusal() {
    let faulty = sample("faulty/several-faults.php");
    let got = call(&["at", word(&faulty), "15:6"]);
    let from = "No token: nothing is read from 4:1 on; the block is what view reads after that.\n";
    let block = "Block 1 at 14:11, label RELIEF: row 1, cell 2\n1 |RRRR\n  | ^\n";
    assert!(got.out.contains(&format!("{}{}", block, from)), "{}", got.out);
    let refusal = format!("\n{}:5:3: error: refused 13: a row starts with less than", faulty.display());
    assert!(got.out.contains(&refusal), "{}", got.out);
    assert_eq!(got.status, Some(1));
    let got = call(&["at", word(&faulty), "3:9"]);
    assert_eq!((got.status, got.out.contains("refused")), (Some(0), false));
}

#[test]
fn what_php_reads_otherwise() {
    let faulty = sample("faulty/opening-behind-a-space.php");
    let warning = "PHP reads something else at 7:13 (opens-nothing): <<< 'RELIEF' opens no block; PHP opens a nowdoc \
                   block. It is read as a block here. Take away the blanks before the label.\n";
    for (place, status) in [("4:5", 0), ("7:12", 0), ("7:13", 3), ("8:7", 3), ("11:3", 3)] {
        let got = call(&["at", word(&faulty), place]);
        assert_eq!((got.status, got.out.ends_with(warning)), (Some(status), status == 3), "{}: {}", place, got.out);
    }
    let got = call(&["at", word(&faulty), "8:7"]).out;
    assert!(
        got.contains("\nBlock 2 at 7:13, label RELIEF (a guess): row 1, cell 3\n1 |####  ####\n  |  ^\n"),
        "{}",
        got
    );
    // The library takes the label for a string and the apostrophe for another, which is open; view has no refusal.
    let script = b"<?php <<< 'A'\nit's\nA;\n";
    assert_eq!(call_on(&["check", "-"], script).status, Some(3));
    let got = call_on(&["at", "-", "2:4"], script);
    assert_eq!(got.status, Some(3), "{}", got.out);
    for part in [
        "Block 1 at 1:7, label A (a guess): row 1, cell 4\n",
        "No token: nothing is read from 2:3 on; the block",
        "\nstandard input:4:1: error: refused 1: ",
        "\nPHP reads something else at 1:7 (opens-nothing): ",
    ] {
        assert!(got.out.contains(part), "{}: {}", part, got.out);
    }
    assert_eq!(call_on(&["at", "-", "1:6"], script).status, Some(0));
}

/// Lines that end in a CR alone are counted as view counts them.
#[test]
fn lines_that_end_in_cr() {
    let path = sample("faulty/lines-that-end-in-cr.php");
    let got = call(&["at", word(&path), "5:5"]);
    assert!(
        got.out.contains(" at 5:5, byte 43: \"o\"\nBlock 1 at 4:9, label RELIEF (a guess): row 1, cell 1\n"),
        "{}",
        got.out
    );
    assert!(got.out.contains("\nPHP reads something else at 1:1 (cr-lines): "), "{}", got.out);
    assert_eq!(got.status, Some(3));
}

/// What says that nothing of use was found is no word on what PHP reads.
#[test]
fn a_script_without_a_block() {
    for script in [&b"<?php 1;"[..], b"rows", b""] {
        assert_eq!(call_on(&["check", "-"], script).status, Some(3));
        assert_eq!(call_on(&["at", "-", "0"], script).status, Some(0));
    }
}

#[test]
fn a_script_that_is_too_large() {
    let path = empty_folder("at-size").join("large.php");
    let mut script = b"<?php <<<'A'\no\nA;\n".to_vec();
    script.resize(65_537, b' ');
    fs::write(&path, &script).unwrap();
    let got = call(&["at", word(&path), "2:1"]);
    let want = format!(
        "{0} at 2:1, byte 13: \"o\"\nBlock 1 at 1:7, label A: row 1, cell 1\n1 |o\n  |^\n\
         No token: the script is too large for the library; view reads its first 65,536 bytes.\n\
         No record was looked at, for there is none.\n\
         {0}:1:1: error: refused 11: there are more than 65,536 bytes of script or pool, or more than 65,537 tokens. \
         Divide the script into smaller ones. Only its first 65,536 bytes were read.\n",
        path.display()
    );
    assert_eq!((got.out, got.status), (want, Some(1)));
    assert_eq!(call(&["at", word(&path), "65535"]).status, Some(1));
    for place in ["65536", "65537", "4:65537", "5:1"] {
        let got = call(&["at", word(&path), place]);
        let named = if place.contains(':') { place.to_string() } else { format!("byte {}", place) };
        let told = format!("has more than 65,536 bytes, and {} is not among the first: divide it", named);
        assert_eq!(got.errors, format!("puretakoi: {} {}\n", path.display(), told));
        assert_eq!((got.out.as_str(), got.status), ("", Some(2)));
    }
    let got = call(&["at", word(&path), "2:3"]);
    let told = format!(
        "line 2 of {} has 1 byte and a line break, and 2:3 is past that: name a column from 1 to 2",
        path.display()
    );
    assert_eq!((got.errors, got.status), (format!("puretakoi: {}\n", told), Some(2)));
}

/// The ported reading keeps what indents the rows, and neither rows nor warnings are told. The tokens stand at 0, 13,
/// 13, 26 and 30, and the third, the fifth and the fourth are looked at.
#[test]
fn the_ported_reading() {
    let script = b"<?php <<<'A'\n  o\n  A; <<< 'B'\n1";
    let got = call_on(&["at", "--ported", "-", "2:3"], script);
    let want = "standard input at 2:3, byte 15: \"o\"\n2 |  o\n  |  ^\n\
                In token 2 of 5, at byte 13: 2:1 string part: \"  o\"\n\
                It ends before 2:4, byte 16; its step ends before 3:4, byte 20.\nIt is in the nowdoc block A.\n\
                3 records were looked at. This leads to token 3 (end of text block, indented by spaces), which bears \
                the place of the text before it.\n";
    assert_eq!((got.out.as_str(), got.status), (want, Some(0)));
    let got = call_on(&["at", "--ported", "-", "4:1"], script);
    assert_eq!((got.status, got.out.contains("PHP")), (Some(0), false), "{}", got.out);
    assert_eq!(call_on(&["at", "-", "4:1"], script).status, Some(3));
    let got = call_on(&["at", "--ported", "-", "7"], b"<?php '");
    let last =
        "standard input:1:8: error: refused 1: something is still open where the script ends. Close the string, the \
                text block, the command or the comment.";
    assert_eq!((got.out.lines().last(), got.status), (Some(last), Some(1)));
}

#[test]
fn a_row_is_cut_around_its_mark() {
    let script = b"<?php <<<'A'\n0123456789abcdefghij\nA;\n";
    let told = |columns: &str| {
        let out = call_on(&["at", "-w", columns, "-", "2:15"], script).out;
        out.lines().skip(2).take(2).map(str::to_string).collect::<Vec<_>>()
    };
    assert_eq!(told("23"), ["1 |0123456789abcdefghij", "  |              ^"]);
    assert_eq!(told("11"), ["1 |…abcdef…", "  |     ^"]);
}

fn object(words: &[&str], script: &[u8]) -> Value {
    let got = call_on(&[&["at", "--json", "-"], words].concat(), script);
    json::read(got.out.strip_suffix('\n').unwrap()).unwrap_or_else(|fault| panic!("{}: {}", fault, got.out))
}

#[test]
fn one_object_as_json() {
    let script = b"<?php <<<'A'\n o\n \xFF\n A;\n";
    let got = object(&["2:2"], script);
    for (name, value) in [("line", 2), ("column", 2), ("position", 14), ("tokens", 3), ("looks", 2), ("found", 3)] {
        assert_eq!(got.get(name), &Value::Number(value), "{}", name);
    }
    assert_eq!((got.get("path"), got.get("reading")), (&text("standard input"), &text("sheet")));
    assert_eq!((got.get("where"), got.get("before"), got.get("after")), (&text("token"), &Value::Null, &Value::Null));
    let (token, block) = (got.get("token"), got.get("block"));
    assert_eq!((token.get("number"), token.get("kind")), (&Value::Number(2), &Value::Number(5)));
    assert_eq!((token.get("name"), token.get("value").bytes()), (&text("string part"), b"o\n\xFF".to_vec()));
    assert_eq!((got.get("bytes").get("from"), got.get("bytes").get("to")), (&Value::Number(13), &Value::Number(18)));
    let end = got.get("end");
    assert_eq!((end.get("line"), end.get("column")), (&Value::Number(4), &Value::Number(3)));
    assert_eq!((end.get("position"), token.get("end")), (&Value::Number(21), &Value::Number(21)));
    assert_eq!((got.get("lines").get("number"), got.get("lines").get("count")), (&Value::Number(1), &Value::Number(2)));
    assert_eq!((block.get("number"), block.get("position")), (&Value::Number(1), &Value::Number(6)));
    assert_eq!((block.get("part"), block.get("cell")), (&text("cell"), &Value::Number(1)));
    assert_eq!((block.get("row").get("number"), block.get("row").bytes()), (&Value::Number(1), b"o".to_vec()));
    assert_eq!((block.get("guess"), block.get("label").bytes()), (&Value::Bool(false), b"A".to_vec()));
    assert_eq!((got.get("refusal"), got.get("warning")), (&Value::Null, &Value::Null));
    let got = object(&["18"], script);
    assert_eq!((got.get("where"), got.get("token")), (&text("lost-break"), &Value::Null));
    assert_eq!((got.get("end"), got.get("before").get("end")), (&Value::Null, &Value::Number(21)));
    assert_eq!(
        (got.get("before").get("number"), got.get("after").get("number")),
        (&Value::Number(2), &Value::Number(3))
    );
    assert_eq!((got.get("block").get("part"), got.get("block").get("cell")), (&text("break"), &Value::Null));
}

#[test]
fn refusals_and_warnings_as_json() {
    let got = object(&["7"], b"<?php '");
    assert_eq!((got.get("where"), got.get("refusal").get("number")), (&text("unread"), &Value::Number(1)));
    assert_eq!(got.get("refusal").get("position"), &Value::Number(6));
    let got = object(&["--ported", "5"], b"<?php <<< 'A'\n");
    assert_eq!((got.get("reading"), got.get("where")), (&text("ported"), &text("between")));
    let got = object(&["13"], b"<?php <<< 'A'\no\nA;");
    let warning = got.get("warning");
    assert_eq!((warning.get("kind"), warning.get("position")), (&text("opens-nothing"), &Value::Number(6)));
}

/// No bytes end it; what it writes has no control and is JSON; and what it says of the token is true of the bytes.
#[test]
fn wild_bytes() {
    let mut random = Random::new(11);
    for _ in 0..3_000 {
        let mut script = [pieces::script(&mut random), pieces::script(&mut random)].concat();
        let place = random.below(script.len() + 1);
        script.insert(place, random.below(256) as u8);
        let script = with_lf_lines(&script).unwrap_or(script);
        let octals = [Octal::Rust, Octal::Manual][random.below(2)];
        let sheet = Some(Sheet::read_by(&script, octals)).filter(|_| random.below(2) > 0);
        let choices = Choices { nowdocs: if sheet.is_some() { Reading::Sheet } else { Reading::Ported }, octals };
        let tokens = TokenList::new(&script, choices);
        for _ in 0..8 {
            let byte = random.below(script.len() + 1);
            let pointed = Pointed::new(&script, &tokens, sheet.as_ref(), byte);
            let told = pointed.text("a.php", [None, Some(12)][random.below(2)]);
            assert!(!told.chars().any(|letter| letter.is_control() && letter != '\n'), "{:?}: {}", script, told);
            assert_eq!(pointed.status(), status(&tokens, sheet.as_ref(), byte), "{} of {:?}", byte, script);
            let object = pointed_json::object("a.php", choices, &pointed);
            let object = json::read(object.trim_end()).unwrap_or_else(|fault| panic!("{:?}: {}", script, fault));
            check_token(&script, byte, &object);
        }
    }
}

/// The status as it is promised: 1 for a refusal before or at the byte, 3 where PHP reads something else before or at
/// it; where both are so, 1 if `view` has that refusal too, else 3.
fn status(tokens: &TokenList, sheet: Option<&Sheet>, byte: usize) -> u8 {
    let refusal = tokens.end().err().filter(|_| byte >= tokens.session().position() as usize);
    let is_before = |warning: &Warning| warning.kind.is_of_php() && warning.span.position as usize <= byte;
    let is_warned = sheet.map_or(false, |sheet| sheet.warnings.iter().any(is_before));
    let has_it = |refusal| sheet.map_or(false, |sheet| sheet.faults.iter().any(|fault| fault.refusal == refusal));
    match refusal {
        Some(refusal) if !is_warned || has_it(refusal) => 1,
        _ if is_warned => 3,
        _ => 0,
    }
}

/// A literal or a comment stands from its place up to its end; of another token the step may go on after it.
fn check_end(token: &Value, end: &Value, (from, to): (usize, usize)) {
    assert_eq!((token.get("end"), matches!(end, Value::Number(end) if *end as usize >= to)), (end, true));
    if (17..=21).map(Value::Number).any(|kind| kind == *token.get("kind")) {
        let want = (&Value::Number(from as u64), &Value::Number(to as u64));
        assert_eq!((token.get("position"), end), want, "{:?}", token);
    }
}

/// A token whose value is its bytes in the script has just these there, the byte among them.
fn check_token(script: &[u8], byte: usize, object: &Value) {
    let (from, to) = match (object.get("bytes").get("from"), object.get("bytes").get("to")) {
        (Value::Number(from), Value::Number(to)) => (*from as usize, *to as usize),
        _ => return,
    };
    assert!((from..to).contains(&byte), "{} of {:?}", byte, script);
    let as_it_stands = [1, 2, 3, 4, 6, 7, 8, 9, 10, 11, 12, 13, 14, 15, 16, 21].map(Value::Number);
    let (token, bytes) = (object.get("token"), &script[from..to]);
    if as_it_stands.contains(token.get("kind")) {
        assert_eq!(token.get("value").bytes(), bytes, "{} of {:?}", byte, script);
    }
    check_end(token, object.get("end").get("position"), (from, to));
    // A string part without an escape: in the ported reading it keeps all, but for a first quote.
    let is_plain_part = token.get("kind") == &Value::Number(5) && !bytes.contains(&b'\\');
    if is_plain_part && object.get("reading") == &text("ported") {
        let value = token.get("value").bytes();
        assert!(value == bytes || [b"\"", &value[..]].concat() == bytes, "{} of {:?}", byte, script);
    }
}
