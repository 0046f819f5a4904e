//! `records`: the files against what sheets/ stores, the printed form against what stands in printed/, and what
//! becomes of old files.

mod common;

use std::fs;
use std::path::{Path, PathBuf};

use common::{call, empty_folder, sample, tests_folder, word, Run};
use puretakoi::{file_to_list, kinds, list_to_file, records, Record};

const GOOD: [&str; 5] = ["remarks", "station-forecourt", "street-crossing", "street-names", "tabs-before-closer"];
const REFUSED: [&str; 3] = ["faulty/closer-missing", "faulty/closer-with-spaces-and-tabs", "faulty/remark-not-closed"];
const REFUSED_AS_SHEETS: [&str; 2] = ["faulty/label-with-letters", "faulty/row-with-less-indentation"];

/// What is written beside a script.
const ENDINGS: [&str; 3] = [".pool", ".records", ".records.choices"];

fn stored(name: &str, ending: &str) -> String {
    fs::read_to_string(sample(&format!("{}{}", name, ending))).expect("the sample sheets can be read")
}

/// A copy of a sheet in an empty folder of the test's own.
fn copy(name: &str, test: &str) -> PathBuf {
    let script = empty_folder(&format!("records-{}/{}", test, name)).join("sheet.php");
    fs::write(&script, stored(name, ".php")).unwrap();
    script
}

fn beside(script: &Path, ending: &str) -> PathBuf {
    PathBuf::from(format!("{}{}", script.display(), ending))
}

/// The endings of what stands beside a script.
fn there(script: &Path) -> Vec<String> {
    let name = script.file_name().unwrap().to_str().unwrap();
    let entries = fs::read_dir(script.parent().unwrap()).unwrap();
    let names = entries.map(|entry| entry.unwrap().file_name().into_string().unwrap());
    let mut endings: Vec<String> = names.filter(|entry| entry != name).map(|entry| entry.replace(name, "")).collect();
    endings.sort();
    endings
}

fn write(options: &[&str], script: &Path) -> Run {
    call(&[&["records"], options, &[word(script)]].concat())
}

fn print(script: &Path) -> Run {
    call(&["records", "--print", word(&beside(script, ".records"))])
}

/// The records and the pool that are written of a sheet; the file is what its own list gives again.
fn written(script: &Path, options: &[&str]) -> (Vec<Record>, Vec<u8>) {
    let got = write(options, script);
    assert_eq!((got.status, got.out.as_str(), got.errors.as_str()), (Some(0), "", ""));
    assert_eq!(there(script), ENDINGS);
    let file = fs::read(beside(script, ".records")).unwrap();
    let list = file_to_list(&file).unwrap();
    assert_eq!(list_to_file(&list).unwrap(), file);
    (records(&list).collect(), fs::read(beside(script, ".pool")).unwrap())
}

#[test]
fn records_are_the_rows_that_are_stored() {
    for name in GOOD.iter().chain(&REFUSED_AS_SHEETS) {
        let script = copy(name, "rows");
        let (all, pool) = written(&script, &[]);
        let mut rows = String::new();
        let mut start = 0;
        for Record { kind, detail, span, start: from, len, end } in all {
            let place = format!("{} {} {}", span.line, span.column, span.position);
            rows += &format!("{} {} {} {} {}\n", kind, place, detail, len, end.unwrap_or(0));
            assert_eq!(from, start, "values stand one behind another");
            start += len;
        }
        assert_eq!(start as usize, pool.len());
        rows += &format!("end {}\n", stored(name, ".php").len());
        assert_eq!(rows, stored(name, ".rows"), "{}", name);
    }
}

/// The value of a block's part, which stands before the block's end, is what PHP makes of it.
#[test]
fn sheets_are_the_relief_that_is_stored() {
    for name in GOOD {
        let script = copy(name, "relief");
        let (all, pool) = written(&script, &["--sheet"]);
        let is_end = |record: &Record| (kinds::END_DOC_STRING_NONE..=kinds::END_DOC_STRING_TAB).contains(&record.kind);
        let mut relief = Vec::new();
        for pair in all.windows(2).filter(|pair| is_end(&pair[1])) {
            relief.extend_from_slice(pair[0].value(&pool).unwrap());
            relief.push(b'\n');
        }
        assert_eq!(String::from_utf8(relief).unwrap(), stored(name, ".relief"), "{}", name);
    }
}

/// The checksum is the published check value of CRC-32.
#[test]
fn the_choices_say_what_made_the_file() {
    let script = empty_folder("records-choices").join("a b.php");
    fs::write(&script, "123456789").unwrap();
    for (options, reading, octal) in [
        (&[][..], "ported", "rust"),
        (&["--sheet"], "sheet", "rust"),
        (&["--octal", "manual"], "ported", "manual"),
        (&["--sheet", "--octal=manual"], "sheet", "manual"),
    ] {
        written(&script, options);
        let want = format!(
            "reading: {}\noctal: {}\nscript: a b.php\nbytes: 9\ncrc-32: cbf43926\ntokens: 1\nvalue bytes: 9\n\
             program: puretakoi 0.1.0\n",
            reading, octal
        );
        assert_eq!(fs::read_to_string(beside(&script, ".records.choices")).unwrap(), want);
    }
}

#[test]
fn refused_sheets_leave_nothing() {
    let as_sheets = REFUSED_AS_SHEETS.iter().map(|name| (name, &["--sheet"][..]));
    for (name, options) in REFUSED.iter().map(|name| (name, &[][..])).chain(as_sheets) {
        let script = copy(name, "refused");
        let fresh = write(options, &script);
        let first = format!("puretakoi: {}: refused ", script.display());
        assert_eq!((fresh.status, fresh.errors.lines().count()), (Some(1), 1), "{}", fresh.errors);
        assert!(fresh.errors.starts_with(&first) && !fresh.errors.contains("removed"), "{}", fresh.errors);
        ENDINGS.iter().for_each(|ending| fs::write(beside(&script, ending), "old").unwrap());
        let again = write(options, &script);
        let removed = ENDINGS.map(|ending| beside(&script, ending).display().to_string()).join(", ");
        let want = format!("{}; old files are removed: {}\n", fresh.errors.trim_end(), removed);
        assert_eq!((again.status, again.errors), (Some(1), want));
        assert_eq!(there(&script), Vec::<String>::new());
    }
}

#[test]
fn a_script_that_is_gone_leaves_nothing() {
    let script = copy("remarks", "gone");
    written(&script, &[]);
    fs::remove_file(&script).unwrap();
    let got = write(&[], &script);
    assert_eq!((got.status, got.errors.lines().count()), (Some(2), 1));
    assert!(got.errors.starts_with(&format!("puretakoi: can't read {}: ", script.display())), "{}", got.errors);
    assert!(got.errors.contains("; old files are removed: "), "{}", got.errors);
    assert_eq!(there(&script), Vec::<String>::new());
}

/// A folder in the place of a file can be neither replaced nor removed.
#[test]
fn what_cannot_be_written_leaves_nothing_that_is_old() {
    let script = copy("remarks", "place");
    written(&script, &[]);
    fs::remove_file(beside(&script, ".records")).unwrap();
    fs::create_dir(beside(&script, ".records")).unwrap();
    let got = write(&[], &script);
    assert_eq!((got.status, got.errors.lines().count()), (Some(2), 1), "{}", got.errors);
    assert!(got.errors.contains("sheet.php.records is old and can't be removed ("), "{}", got.errors);
    assert_eq!(there(&script), [".records"]);
}

#[test]
fn all_scripts_are_tried_and_the_gravest_status_given() {
    let (good, refused) = (copy("remarks", "all"), copy("faulty/closer-missing", "all"));
    let gone = good.with_file_name("gone.php");
    let got = call(&["records", word(&refused), word(&good)]);
    assert_eq!((got.status, got.errors.lines().count()), (Some(1), 1));
    let got = call(&["records", word(&gone), word(&refused), word(&good)]);
    assert_eq!((got.status, got.errors.lines().count()), (Some(2), 2));
    assert_eq!(there(&good), ENDINGS);
}

#[test]
fn no_script_is_written_over() {
    let script = copy("remarks", "over");
    let other = beside(&script, ".pool");
    fs::write(&other, "<?php 1;").unwrap();
    let got = call(&["records", word(&script), word(&other)]);
    let fault = format!("puretakoi: {} is one of the scripts and would be written over: rename it; ", other.display());
    assert!(got.errors.starts_with(&fault), "{}", got.errors);
    assert_eq!((got.status, fs::read_to_string(&other).unwrap().as_str()), (Some(2), "<?php 1;"));
    assert_eq!(there(&script), [".pool"]);
}

#[test]
fn the_printed_form() {
    for name in ["remarks", "station-forecourt", "tabs-before-closer"] {
        let script = copy(name, "printed");
        written(&script, &["--sheet"]);
        let expected = fs::read_to_string(tests_folder().join("printed").join(format!("{}.txt", name))).unwrap();
        let got = print(&script);
        assert_eq!((got.out, got.status, got.errors.as_str()), (expected, Some(0), ""));
    }
}

/// A file that an older writer made has 0 in the place of each end: the same lines, but that no end is stated. It goes
/// to a list and back as it is.
#[test]
fn a_file_of_an_older_writer() {
    for name in ["remarks", "station-forecourt", "tabs-before-closer"] {
        let script = copy(name, "older");
        written(&script, &["--sheet"]);
        let file = beside(&script, ".records");
        let mut old = fs::read(&file).unwrap();
        old.chunks_mut(32).for_each(|record| record[28..].fill(0));
        fs::write(&file, &old).unwrap();
        assert_eq!(file_to_list(&old).and_then(|list| list_to_file(&list)), Ok(old));
        let new = fs::read_to_string(tests_folder().join("printed").join(format!("{}.txt", name))).unwrap();
        let want: String = new.lines().map(|line| without_end(line) + "\n").collect();
        let got = print(&script);
        assert_eq!((got.out, got.status, got.errors.as_str()), (want, Some(0), ""));
    }
}

/// A line of a token as it is printed where its end is not stated; any other line as it is.
fn without_end(line: &str) -> String {
    let (place, rest) = line.split_once("..").unwrap_or((line, ""));
    let is_place = |byte: &u8| byte.is_ascii_digit() || b": ".contains(byte);
    match rest.split_once(' ') {
        Some((_end, kind)) if !line.starts_with(' ') && place.as_bytes().iter().all(is_place) => {
            format!("{}.. (end not stated) {}", place, kind)
        }
        _ => line.to_string(),
    }
}

/// The first and the last line of what is printed.
fn ends(got: &Run) -> (&str, &str) {
    (got.out.lines().next().unwrap(), got.out.lines().last().unwrap())
}

#[test]
fn without_a_pool_and_with_one_too_short() {
    let script = copy("tabs-before-closer", "pools");
    written(&script, &[]);
    fs::remove_file(beside(&script, ".records.choices")).unwrap();
    fs::write(beside(&script, ".pool"), "<?ph").unwrap();
    let short = ("1:1 0..5 full open tag: 5 bytes, not in the pool", "8 tokens, no choices beside the file");
    assert_eq!(ends(&print(&script)), short);
    fs::remove_file(beside(&script, ".pool")).unwrap();
    let none = ("1:1 0..5 full open tag: 5 bytes", "8 tokens, no pool beside the file, no choices beside the file");
    assert_eq!(ends(&print(&script)), none);
    fs::write(&script, "o").unwrap();
    written(&script, &[]);
    fs::remove_file(beside(&script, ".pool")).unwrap();
    let one = ("1:1 0..1 inline text: 1 byte", "1 token, no pool beside the file, by the ported reading of sheet.php");
    let got = print(&script);
    assert_eq!((ends(&got), got.status), (one, Some(0)));
}

#[test]
fn choices_that_do_not_fit_are_told() {
    let script = copy("tabs-before-closer", "misfits");
    written(&script, &["--sheet"]);
    let choices = beside(&script, ".records.choices");
    let text = fs::read_to_string(&choices).unwrap();
    let values = fs::read(beside(&script, ".pool")).unwrap().len();
    let check = |fault: &str| {
        let got = print(&script);
        assert_eq!((got.status, got.errors.clone()), (Some(3), format!("puretakoi: warning: {}\n", fault)));
        assert_eq!(ends(&got).1, "8 tokens, by the sheet reading of sheet.php");
    };
    fs::write(&choices, text.replace("tokens: 8", "tokens: 9")).unwrap();
    check(&format!("{} tells of 9 tokens, and there are 8: write the records anew", choices.display()));
    fs::write(&choices, text.replace(&format!("value bytes: {}", values), "value bytes: 1")).unwrap();
    check(&format!("{} tells of 1 value byte, and there are {}: write the records anew", choices.display(), values));
    fs::write(&choices, &text).unwrap();
    fs::write(&script, stored("tabs-before-closer", ".php").replace("tram", "TRAM")).unwrap();
    check(&format!("{} has changed since its records were written: write them anew", script.display()));
    fs::remove_file(&script).unwrap();
    assert_eq!(print(&script).status, Some(0), "a script that is not there has not changed");
    fs::write(&choices, "reading: sheet\n").unwrap();
    let got = print(&script);
    assert_eq!((got.status, got.out.as_str(), got.errors.lines().count()), (Some(1), "", 1), "{}", got.errors);
}

/// A comment is the last kind that there is.
#[test]
fn records_of_a_kind_that_is_none() {
    let file = empty_folder("records-kinds").join("kinds.records");
    for (kind, status) in [(0, 1), (kinds::INLINE_HTML, 0), (kinds::COMMENT, 0), (22, 1)] {
        fs::write(&file, list_to_file(&[kind, 0, 1, 1, 0, 0, 0, 0]).unwrap()).unwrap();
        assert_eq!(call(&["records", "--print", word(&file)]).status, Some(status), "kind {}", kind);
    }
}

/// Scripts are no record files: one of 41 times 32 bytes, one of no whole number of records.
#[test]
fn what_is_no_record_file() {
    for (name, rest) in [("street-crossing", 0), ("station-forecourt", 27)] {
        let script = copy(name, "none");
        assert_eq!(stored(name, ".php").len() % 32, rest);
        let got = call(&["records", "--print", word(&script)]);
        let want =
            format!("puretakoi: {} is no record file: give one that puretakoi records wrote\n", script.display());
        assert_eq!((got.status, got.out.as_str(), got.errors), (Some(1), "", want));
    }
    for path in ["nowhere.records", "/"] {
        let got = call(&["records", "--print", path]);
        assert_eq!((got.status, got.out.as_str(), got.errors.lines().count()), (Some(2), "", 1));
    }
}
