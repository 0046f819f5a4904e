//! Octal escapes over 377 by both choices, in every verb: the note where one is read as PHP does, the line where it is
//! refused, and what the choice is called. All places and bytes were worked by hand.

mod common;

use std::fs;

use command::reading::sheet::{Sheet, Verdict};
use command::reading::warning::Kind;
use command::showing::text::what_was_read;
use command::showing::{brf, html};
use common::json::{self, text, Value};
use common::{call, call_on, empty_folder, word, Run};
use puretakoi::Octal;

const ADVICE: &str =
    "Write at most 377, or choose octals as the manual has them: the low eight bits are then the byte.";

/// A block, and a legend with an escape at 4:9.
const LEGEND: &str = "<?php <<<'A'\no\nA;\nf(\"kerb \\400\", 'b');\n";

/// A sheet's notes: line, column, escape and byte.
fn notes(script: &str) -> Vec<(u32, u32, String, u8)> {
    let sheet = Sheet::read(script.as_bytes());
    let note =
        |note: &command::reading::octal::Overflow| (note.span.line, note.span.column, note.escape.clone(), note.byte);
    sheet.notes.iter().map(note).collect()
}

fn told(line: u32, column: u32, escape: &str, byte: u8) -> (u32, u32, String, u8) {
    (line, column, escape.to_string(), byte)
}

/// Each text that has such escapes, and steps that other findings take back.
#[test]
fn where_notes_stand() {
    assert_eq!(notes("<?php \"\\400\";"), [told(1, 8, "\\400", 0)]);
    assert_eq!(
        notes("<?php f(\"$a\\777 {$b[\"\\456\"]}\\444a\");"),
        [told(1, 12, "\\777", 255), told(1, 22, "\\456", b'.'), told(1, 29, "\\444", b'$'),]
    );
    // A string over lines, whose first line has nothing odd.
    assert_eq!(notes("<?php f(\"a\nb\\477\n\");"), [told(2, 2, "\\477", b'?')]);
    // In a heredoc, also where the break that the escape wrote is all of the text, and goes.
    assert_eq!(notes("<?php <<<E\n$a\\412$b\nE;"), [told(2, 3, "\\412", b'\n')]);
    // A heredoc that PHP closes elsewhere: its text up to there.
    assert_eq!(notes("<?php <<<E\n\\500\rE; 1;\nE;"), [told(2, 1, "\\500", b'@')]);
    assert_eq!(notes("<?php <<<E\n\\500\nEx \\501\nE;"), [told(2, 1, "\\500", b'@'), told(3, 4, "\\501", b'A')]);
    // After a refusal, and in what is then a guess.
    assert_eq!(notes("<?php \"\\u{D800}\\400\";"), [told(1, 16, "\\400", 0)]);
    assert_eq!(notes("<?php\n'a\n\"\\400\";\n"), [told(3, 2, "\\400", 0)]);
    // A quote too many makes a string of what is none: what was noted in it is forgotten.
    assert_eq!(notes("<?php\n$a = \"x\"\";\n\\400 . \"y\";\n"), []);
    assert_eq!(notes(&format!("<?php\n$a = \"x\"\";\n{} . \"y\";\n", "\\400".repeat(150))), []);
}

/// Brackets behind a variable that PHP refuses have a warning and no note, up to their end.
#[test]
fn in_brackets_that_php_refuses() {
    for (script, column, wanted) in [
        ("<?php \"$a[\\400]\";", 11, vec![]),
        ("<?php \"$a[\\400\";", 11, vec![]),
        ("<?php \"$a[ \\400]\";", 11, vec![]),
        ("<?php \"$a[b\\400] \\401\";", 12, vec![told(1, 18, "\\401", 1)]),
        ("<?php \"$a['b\\400'] \\401\";", 11, vec![told(1, 20, "\\401", 1)]),
        ("<?php <<<E\n$a[\\400]\\401\nE;", 4, vec![told(2, 9, "\\401", 1)]),
        ("<?php <<<E\n$a[\\400]\\401\rE; 1;\nE;", 4, vec![told(2, 9, "\\401", 1)]),
    ] {
        let warnings = Sheet::read(script.as_bytes()).warnings;
        let offsets = warnings.iter().filter(|warning| warning.kind == Kind::Offset);
        assert_eq!(offsets.map(|warning| warning.span.column).collect::<Vec<_>>(), [column], "{}", script);
        assert_eq!(notes(script), wanted, "{}", script);
    }
    assert_eq!(notes("<?php \"$a[b]\\400\";"), [told(1, 13, "\\400", 0)]);
}

/// A note where the reading is a guess says so, behind a refusal and in a heredoc that PHP would not open.
#[test]
fn a_note_in_a_guess() {
    let script = b"<?php \"\\401\";\n'a\n\"\\400\";\n";
    let sheet = Sheet::read(script);
    assert_eq!(sheet.notes.iter().map(|note| note.is_guess).collect::<Vec<_>>(), [false, true]);
    let shown = call_on(&["view", "-"], script).out;
    assert!(
        shown.contains("\nnote at 1:8: \\401 is") && shown.contains("\nnote at 3:2 (a guess): \\400 is"),
        "{}",
        shown
    );
    let check = call_on(&["check", "-"], script).out;
    assert!(check.contains(":1:8: note: ") && check.contains(" Write \\001 if it is meant.\n"), "{}", check);
    assert!(check.contains(" Write \\000 if it is meant. It stands where the reading is a guess.\n"), "{}", check);
    let body = html::section("a.php", 1, &sheet).body;
    assert!(body.contains("<p>Note at 1:8: \\401") && body.contains("<p>Note at 3:2 (a guess): \\400"), "{}", body);
    let value = json::read(&call_on(&["view", "--json", "-"], script).out.replace('\n', "")).unwrap();
    let guess = |at: usize| value.at(0).get("notes").at(at).get("guess").clone();
    assert_eq!([guess(0), guess(1)], [Value::Bool(false), Value::Bool(true)]);
    let mut unmarked = Sheet::read(script);
    unmarked.notes[1].is_guess = false;
    assert_ne!(brf::sheet("a.php", &sheet), brf::sheet("a.php", &unmarked));
    let meant = Sheet::read(b"<?php <<< E \n\\400\nE; \"\\401\";\n\"\\402\";");
    assert_eq!((meant.heredocs.len(), meant.heredocs[0].is_guess), (1, true));
    assert_eq!(meant.notes.iter().map(|note| note.is_guess).collect::<Vec<_>>(), [true, false, false]);
}

#[test]
fn what_is_no_overflow() {
    for script in [
        "<?php \"\\377 \\40 \\4 \\48 \\\\400 \\x400\";",
        "<?php '\\400' . `\\400` . <<<'A'\n\\400\nA;",
        "<?php // \\400\n# \"\\400\"\n/* \\400 */ ?>\\400",
        "<?php \"\\\\\\\\400\";",
    ] {
        assert_eq!(notes(script), [], "{}", script);
    }
    assert_eq!(notes("<?php \"\\\\\\400\";"), [told(1, 10, "\\400", 0)]);
}

/// A note is no warning: the verdict stays, with --strict too. By the Rust's octals there is none.
#[test]
fn a_note_leaves_the_verdict() {
    let sheet = Sheet::read(LEGEND.as_bytes());
    assert_eq!((sheet.verdict(), sheet.notes.len(), sheet.end as usize), (Verdict::Ok, 1, LEGEND.len()));
    let sheet = Sheet::read_by(LEGEND.as_bytes(), Octal::Rust);
    assert_eq!((sheet.verdict(), sheet.notes.len(), sheet.faults.len()), (Verdict::Refused, 0, 1));
}

/// A line may hold thousands, each of which shows the line: a hundred are kept, and all is read.
#[test]
fn a_hundred_are_told() {
    for (count, told, last) in [
        (100, "Read to the end, 706 bytes: 0 blocks, 0 rows, 100 notes, 1 warning.", ""),
        (
            101,
            "Read to the end, 713 bytes: 0 blocks, 0 rows, the first 100 notes, 1 warning.",
            " More such escapes follow, which are not told.",
        ),
    ] {
        let sheet = Sheet::read(format!("<?php {}", "\"\\501\";".repeat(count)).as_bytes());
        assert_eq!((sheet.notes.len(), what_was_read(&sheet)), (100, told.to_string()));
        let sentence = "\\501 is over 377 and is read as byte 65, as PHP does. Write \\101 if it is meant.";
        assert_eq!(sheet.notes[98].sentence(), sentence);
        assert_eq!(sheet.notes[99].sentence(), sentence.to_string() + last);
    }
    for script in [format!("<?php {}", "\"\\400\";".repeat(9_000)), format!("<?php \"{}\";", "\\400".repeat(16_000))] {
        let sheet = Sheet::read(script.as_bytes());
        assert_eq!((sheet.notes.len(), sheet.end as usize, sheet.stopped), (100, script.len(), None));
    }
}

#[test]
fn check_tells_notes() {
    let note = "standard input:4:9: note: \\400 is over 377 and is read as byte 0, as PHP does. Write \\000 if it is \
                meant.\n";
    let good = format!("{}1 sheet, 1 block, 1 row: 1 ok, 0 warned, 0 refused\n", note);
    for words in [&["check", "-"][..], &["check", "--octal", "manual", "-"], &["check", "--strict", "-"]] {
        let got = call_on(words, LEGEND.as_bytes());
        assert_eq!(got, Run { status: Some(0), out: good.clone(), errors: String::new() }, "{:?}", words);
    }
    let refused = format!(
        "standard input:4:13: error: refused 3: an octal escape is over 377. {} It stands in the double-quoted string \
         that opens at 4:3. With --octal manual \\400 is byte 0.\n\
         1 sheet, 1 block, 1 row: 0 ok, 0 warned, 1 refused\n",
        ADVICE
    );
    let got = call_on(&["check", "--octal", "rust", "-"], LEGEND.as_bytes());
    assert_eq!(got, Run { status: Some(1), out: refused, errors: String::new() });
}

#[test]
fn notes_for_programs() {
    let note = |words: &[&str], list: &str| {
        let got = call_on(words, LEGEND.as_bytes());
        assert_eq!(got.status, Some(0));
        let value = json::read(&got.out.replace('\n', "")).unwrap();
        let holder = if list == "notes" { value.at(0).clone() } else { value };
        holder.get(list).at(0).clone()
    };
    let place = |value: &Value| ["line", "column", "position"].map(|name| value.get(name).clone());
    let finding = note(&["check", "--json", "-"], "findings");
    assert_eq!(place(&finding), [4, 9, 26].map(Value::Number));
    let named = ["word", "name"].map(|name| finding.get(name).clone());
    assert_eq!((named, finding.get("number")), ([text("note"), text("octal-overflow")], &Value::Null));
    let note = note(&["view", "--json", "-"], "notes");
    assert_eq!(place(&note), [4, 9, 26].map(Value::Number));
    assert_eq!((note.get("kind"), note.get("escape")), (&text("octal-overflow"), &text("\\400")));
    assert_eq!(note.get("byte"), &Value::Number(0));
}

#[test]
fn notes_on_pages() {
    let sheet = Sheet::read(LEGEND.as_bytes());
    let body = html::section("a.php", 1, &sheet).body;
    let told = "<p>Note at 4:9: \\400 is over 377 and is read as byte 0, as PHP does. Write \\000 if it is meant.</p>";
    assert!(body.contains(told) && body.contains("<mark>\\</mark>400"), "{}", body);
    let without = Sheet::read(LEGEND.replace("\\400", "").as_bytes());
    assert!(!html::section("a.php", 1, &without).body.contains("Note at"));
    // The first lines of the pages are longer by the note.
    let lines = |sheet: &Sheet| brf::sheet("a.php", sheet).lines().count();
    assert!(lines(&sheet) >= lines(&without) + 2, "{}", brf::sheet("a.php", &sheet));
}

/// The tokens after the escape, by each verb's own choice and by the other.
#[test]
fn tokens_and_places() {
    let script = b"<?php \"a\\501\" . 'b';";
    let literal = "1:7 6..13 double-quoted string: \"aA\"\n";
    let whole = format!(
        "1:1 0..5 full open tag: \"<?php\"\n{}1:17 16..19 single-quoted string: \"b\"\n\
         3 tokens, read to the end, 20 bytes\n",
        literal
    );
    let refused = format!(
        "1:1 0..5 full open tag: \"<?php\"\n1 token, then refused 3 at 1:13: an octal escape is over 377. {} \
         With --octal manual \\501 is byte 65.\n",
        ADVICE
    );
    for (words, out, status) in [
        (&["tokens"][..], &refused, 1),
        (&["tokens", "--octal", "rust"], &refused, 1),
        (&["tokens", "--sheet", "-p", "1"], &refused, 1),
        (&["tokens", "--octal", "manual"], &whole, 0),
        (&["tokens", "--sheet", "--octal=manual", "-p", "1"], &whole, 0),
    ] {
        let got = call_on(words, script);
        assert_eq!(got, Run { status: Some(status), out: out.clone(), errors: String::new() }, "{:?}", words);
    }
    for (words, status, line) in [
        (&["at", "-", "1:9"][..], 0, "In token 2 of 3, at byte 6: 1:7 double-quoted string: \"aA\""),
        (&["at", "--ported", "-", "1:9"], 0, "In token 2 of 3, at byte 6: 1:7 double-quoted string: \"aA\""),
        (&["at", "--octal=manual", "-", "1:18"], 0, "In token 3 of 3, at byte 16: 1:17 single-quoted string: \"b\""),
        (&["at", "--octal=rust", "-", "1:18"], 1, "No token: nothing is read from 1:7 on."),
        (&["at", "--octal=rust", "--ported", "-", "1:18"], 1, "No token: nothing is read from 1:7 on."),
    ] {
        let got = call_on(words, script);
        assert!(got.out.lines().any(|told| told == line), "{:?}: {}", words, got.out);
        assert_eq!(got.status, Some(status), "{:?}", words);
        assert_eq!(got.out.contains(" With --octal manual \\501 is byte 65.\n"), status == 1, "{}", got.out);
    }
}

/// `tokens --json` and `at --json` name the choice beside the reading.
#[test]
fn the_choice_is_named() {
    for (words, reading, octal) in [
        (&["tokens", "--json"][..], "ported", "rust"),
        (&["tokens", "--json", "--sheet", "--octal", "manual"], "sheet", "manual"),
        (&["at", "--json", "-", "0"], "sheet", "manual"),
        (&["at", "--json", "--ported", "--octal", "rust", "-", "0"], "ported", "rust"),
    ] {
        let got = json::read(&call_on(words, b"<?php \"\\377\";").out.replace('\n', "")).unwrap();
        assert_eq!((got.get("reading"), got.get("octal")), (&text(reading), &text(octal)), "{:?}", words);
    }
    let end = json::read(&call_on(&["tokens", "--json"], b"<?php \"\\777\";").out.replace('\n', "")).unwrap();
    assert_eq!(end.get("end").get("advice"), &text(ADVICE));
    assert_eq!(end.get("end").get("detail"), &text("With --octal manual \\777 is byte 255."));
}

/// Records are refused by the Rust's octals, and nothing is left; by the manual's they say so beside them.
#[test]
fn records_say_by_which_octals() {
    let folder = empty_folder("octals");
    let script = folder.join("a.php");
    fs::write(&script, "<?php \"\\501\";").unwrap();
    let records = folder.join("a.php.records");
    let choices = folder.join("a.php.records.choices");
    let got = call(&["records", "--octal", "manual", word(&script)]);
    assert_eq!(got, Run { status: Some(0), out: String::new(), errors: String::new() });
    let said = fs::read_to_string(&choices).unwrap();
    assert!(said.starts_with("reading: ported\noctal: manual\nscript: a.php\nbytes: 13\n"), "{}", said);
    assert_eq!(fs::read(folder.join("a.php.pool")).unwrap(), b"<?phpA");
    let printed = call(&["records", "--print", word(&records)]).out;
    assert!(printed.ends_with("2 tokens, by the ported reading with the manual's octals of a.php\n"), "{}", printed);
    for words in [&["records"][..], &["records", "--octal=rust"]] {
        let got = call(&[words, &[word(&script)]].concat());
        let want = format!(
            "puretakoi: {}: refused 3 at 1:12: an octal escape is over 377. {} With --octal manual \\501 is byte 65.",
            script.display(),
            ADVICE
        );
        assert!(got.errors.starts_with(&want), "{}", got.errors);
        assert_eq!((got.status, records.exists(), choices.exists()), (Some(1), false, false));
    }
}
