//! A sheet with a warning: its word, its status, and --strict. An empty script is one.

mod common;

use std::fs;
use std::path::PathBuf;

use common::{call, empty_folder, run, word, Run};

/// An empty script and a good one.
fn scripts(name: &str) -> [PathBuf; 2] {
    let folder = empty_folder(name);
    let scripts = ["empty.php", "good.php"].map(|name| folder.join(name));
    fs::write(&scripts[0], "").unwrap();
    fs::write(&scripts[1], "<?php <<<'A'\no\nA;\n").unwrap();
    scripts
}

fn check_end(got: &Run, status: i32, summary: &str) {
    assert_eq!((got.status, got.errors.as_str()), (Some(status), ""));
    assert_eq!(got.out.lines().last(), Some(summary));
}

#[test]
fn a_check_warns_and_strictly_refuses() {
    let [empty, good] = scripts("strict-check");
    let got = call(&["check", word(&empty), word(&good)]);
    assert!(got.out.starts_with(&format!("{}:1:1: warning: ", empty.display())), "{}", got.out);
    check_end(&got, 3, "2 sheets, 1 block, 1 row: 1 ok, 1 warned, 0 refused");
    let got = call(&["check", "--strict", word(&empty), word(&good)]);
    assert!(got.out.starts_with(&format!("{}:1:1: error: ", empty.display())), "{}", got.out);
    check_end(&got, 1, "2 sheets, 1 block, 1 row: 1 ok, 0 warned, 1 refused");
}

#[test]
fn a_view_warns_and_strictly_refuses() {
    let [empty, good] = scripts("strict-view");
    assert_eq!(run(&[word(&empty)]).status, Some(3));
    let alone = run(&["--strict", word(&empty)]);
    assert_eq!((alone.status, alone.out.lines().last()), (Some(1), Some("Refused by --strict.")));
    let got = run(&[word(&empty), word(&good)]);
    let line = format!("\n{}: 0 blocks, 0 rows, warned at 1:1: ", empty.display());
    assert!(got.out.contains(&line), "{}", got.out);
    check_end(&got, 3, "2 sheets, 1 block, 1 row: 1 ok, 1 warned, 0 refused");
    let got = run(&["--strict", word(&empty), word(&good)]);
    let is_told = got.out.lines().any(|told| told.starts_with(line.trim()) && told.ends_with(", refused by --strict"));
    assert!(is_told, "{}", got.out);
    check_end(&got, 1, "2 sheets, 1 block, 1 row: 1 ok, 0 warned, 1 refused");
}

#[test]
fn warned_sheets_stand_between_refused_and_good_ones() {
    let [empty, good] = scripts("strict-first");
    let open = empty.with_file_name("open.php");
    fs::write(&open, "<?php <<<'A'\no\n").unwrap();
    let got = run(&["--refused-first", word(&empty), word(&good), word(&open)]);
    let places = [&open, &empty, &good].map(|path| got.out.find(&format!("{}\n\n", path.display())));
    assert!(places.iter().all(Option::is_some) && places.windows(2).all(|pair| pair[0] < pair[1]), "{}", got.out);
}
