//! Many scripts: the whole of each in their order, the lines of those in trouble, the summary, and the statuses.

mod common;

use std::fs;
use std::path::{Path, PathBuf};

use command::reading::sheet::Sheet;
use command::showing::{braille, brf, json};
use common::{empty_folder, run, word};

const GOOD: &str = "<?php <<<'A'\no\nA;\n";
const OPEN: &str = "<?php <<<'A'\no\n";

/// What is told of the open sheet among others.
const TROUBLE: &str = "0 blocks, 0 rows, refused 1 at 1:7: unexpected end of file";

/// A folder with good sheets, the second of them open.
fn folder(name: &str) -> PathBuf {
    let folder = empty_folder(name);
    fs::create_dir(folder.join("c")).unwrap();
    for (name, script) in [("a.php", GOOD), ("b.php", OPEN), ("c/d.php", GOOD), ("notes.txt", "no script")] {
        fs::write(folder.join(name), script).unwrap();
    }
    folder
}

/// What is printed of one script alone.
fn alone(path: &Path) -> String {
    run(&[word(path)]).out
}

/// What is printed of all sheets of the folder, in an order, with the end that all have.
fn all_of(folder: &Path, order: [&str; 3]) -> String {
    let sheets = order.map(|name| alone(&folder.join(name))).join("\n");
    let trouble = format!("{}/b.php: {}\n", folder.display(), TROUBLE);
    format!("{}\n{}3 sheets, 2 blocks, 2 rows: 2 ok, 0 warned, 1 refused\n", sheets, trouble)
}

#[test]
fn a_folder_shows_each_sheet_then_trouble_and_the_summary() {
    let folder = folder("many");
    let got = run(&[word(&folder)]);
    assert_eq!(got.out, all_of(&folder, ["a.php", "b.php", "c/d.php"]));
    assert_eq!((got.status, got.errors.as_str()), (Some(1), ""));
}

#[test]
fn refused_sheets_come_first_if_asked() {
    let folder = folder("first");
    let got = run(&["--refused-first", word(&folder)]);
    assert_eq!(got.out, all_of(&folder, ["b.php", "a.php", "c/d.php"]));
    let page = folder.join("page.html");
    let got = run(&["--refused-first", "--html", word(&page), word(&folder)]);
    let places: Vec<usize> = ["b.php: ", "a.php: ", "d.php: "].map(|name| got.out.find(name).unwrap()).to_vec();
    assert!(places.windows(2).all(|pair| pair[0] < pair[1]), "{}", got.out);
    let page = fs::read_to_string(page).unwrap();
    assert!(page.find("b.php</h2>") < page.find("a.php</h2>"), "{}", page);
}

#[test]
fn several_at_a_time_give_the_same() {
    let folder = folder("jobs");
    let all = |jobs| run(&["-j", jobs, word(&folder), "sheets", "sheets/nowhere.php", "sheets/tabs.php"]);
    let one = all("1");
    assert!(one.out.lines().count() > 100, "{}", one.out);
    for jobs in ["2", "3", "64"] {
        assert_eq!(all(jobs), one);
    }
}

#[test]
fn with_a_page_a_line_for_each_is_printed() {
    let folder = folder("lines");
    let line = |name: &str, said: &str| format!("{}/{}: {}\n", folder.display(), name, said);
    let want = [
        line("a.php", "1 block, 1 row, ok"),
        line("b.php", TROUBLE),
        line("c/d.php", "1 block, 1 row, ok"),
        "3 sheets, 2 blocks, 2 rows: 2 ok, 0 warned, 1 refused\n".to_string(),
    ]
    .concat();
    for option in ["--html", "--brf"] {
        let got = run(&[option, word(&folder.join("made")), word(&folder)]);
        assert_eq!((got.out, got.status, got.errors), (want.clone(), Some(1), String::new()));
    }
    let got = run(&["--html", "-", word(&folder)]);
    assert_eq!((got.errors, got.status), (want, Some(1)));
    assert!(got.out.starts_with("<!DOCTYPE html>") && got.out.ends_with("</html>\n"), "{}", got.out);
}

#[test]
fn good_sheets_give_status_0() {
    let folder = folder("good");
    let (one, other) = (folder.join("a.php"), folder.join("c"));
    let got = run(&[word(&one), word(&other)]);
    let summary = "2 sheets, 2 blocks, 2 rows: 2 ok, 0 warned, 0 refused\n";
    assert_eq!(got.out, format!("{}\n{}\n{}", alone(&one), alone(&other.join("d.php")), summary));
    assert_eq!((got.status, got.errors.as_str()), (Some(0), ""));
}

#[test]
fn what_cannot_be_read_is_told_and_the_others_are_read() {
    let folder = folder("unread");
    let (nowhere, open, good) = (folder.join("nowhere.php"), folder.join("b.php"), folder.join("a.php"));
    let got = run(&[word(&nowhere), word(&open), word(&good)]);
    let last =
        format!("\n{}: {}\n2 sheets, 1 block, 1 row: 1 ok, 0 warned, 1 refused, 1 not read\n", word(&open), TROUBLE);
    assert!(got.out.starts_with(&format!("{}\n", open.display())) && got.out.ends_with(&last), "{}", got.out);
    assert_eq!((got.status, got.errors.lines().count()), (Some(2), 1), "{}", got.errors);
    assert!(got.errors.starts_with(&format!("puretakoi: can't read {}: ", nowhere.display())), "{}", got.errors);

    let alone = run(&[word(&nowhere)]);
    assert_eq!((alone.out.as_str(), alone.status, alone.errors), ("", Some(2), got.errors));
}

#[test]
fn a_script_may_end_in_php_in_any_letter_case() {
    let folder = empty_folder("cases");
    for name in ["A.PHP", "b.Php", "c.php", "d.phpx", "php"] {
        fs::write(folder.join(name), GOOD).unwrap();
    }
    let got = run(&["--html", word(&folder.join("page")), word(&folder)]);
    let line = |name| format!("{}/{}: 1 block, 1 row, ok\n", folder.display(), name);
    let lines: String = ["A.PHP", "b.Php", "c.php"].map(line).concat();
    assert_eq!(got.out, lines + "3 sheets, 3 blocks, 3 rows: 3 ok, 0 warned, 0 refused\n");
    assert_eq!(got.status, Some(0));
}

#[test]
fn a_folder_without_scripts_is_told() {
    let folder = empty_folder("without");
    fs::write(folder.join("notes.txt"), "no script").unwrap();
    let got = run(&[word(&folder)]);
    let summary = "0 sheets, 0 blocks, 0 rows: 0 ok, 0 warned, 0 refused, 1 not read\n";
    assert_eq!((got.out.as_str(), got.status), (summary, Some(2)));
    assert!(got.errors.contains("no .php file is below"), "{}", got.errors);
    assert_eq!(run(&["--json", word(&folder)]).out, "[]\n");
}

/// The forms themselves are held to their rules elsewhere: here each option must give its own.
#[test]
fn each_form_is_the_one_of_its_option() {
    let folder = folder("forms");
    let (one, other, made) = (folder.join("a.php"), folder.join("b.php"), folder.join("made.brf"));
    let (good, open) = (Sheet::read(GOOD.as_bytes()), Sheet::read(OPEN.as_bytes()));
    assert_eq!(run(&["--text", word(&one)]), run(&[word(&one)]));
    assert_eq!(run(&["--braille", "-w", "40", word(&one)]).out, braille::whole(word(&one), &good, Some(40)));
    let objects = format!("[\n{},\n{}\n]\n", json::sheet(word(&one), &good), json::sheet(word(&other), &open));
    assert_eq!(run(&["--json", word(&one), word(&other)]).out, objects);
    let pages = brf::sheet(word(&one), &good) + &brf::sheet(word(&other), &open);
    let got = run(&["--brf", word(&made), "--json", word(&one), word(&other)]);
    assert_eq!((got.out, got.status), (objects, Some(1)));
    assert_eq!(fs::read_to_string(&made).unwrap(), pages);
    assert_eq!(run(&["--brf", "-", word(&one)]).out, brf::sheet(word(&one), &good));
}
