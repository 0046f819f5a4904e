//! What is written never takes a script's place, by whatever name the script is called.

mod common;

use std::fs;
use std::os::unix::fs::symlink;
use std::path::Path;

use common::{empty_folder, run};

const SCRIPT: &str = "<?php <<<'A'\no\nA;\n";

/// The page must be refused, and the script stay as it is.
fn check_refused(page: &Path, path: &Path, script: &Path) {
    let (page, path) = (page.to_str().unwrap(), path.to_str().unwrap());
    for (option, arguments) in [("--html", ["--html", page, path]), ("--brf", [path, "--brf", page])] {
        let got = run(&arguments);
        let fault = format!("puretakoi: {} is one of the scripts: name another path behind {}; usage: ", page, option);
        assert!(got.errors.starts_with(&fault), "{}", got.errors);
        assert_eq!((got.out.as_str(), got.status, got.errors.lines().count()), ("", Some(2), 1));
        assert_eq!(fs::read_to_string(script).unwrap(), SCRIPT);
    }
}

#[test]
fn a_script_that_is_named() {
    let folder = empty_folder("overwrite-named");
    let script = folder.join("sheet.txt");
    fs::write(&script, SCRIPT).unwrap();
    symlink(&script, folder.join("page.html")).unwrap();
    fs::hard_link(&script, folder.join("second.html")).unwrap();
    for page in ["sheet.txt", "../overwrite-named/./sheet.txt", "page.html", "second.html"] {
        check_refused(&folder.join(page), &script, &script);
        check_refused(&script, &folder.join(page), &script);
    }
}

#[test]
fn a_script_of_a_folder() {
    let folder = empty_folder("overwrite-folder");
    let (script, page) = (folder.join("sheets/sheet.php"), folder.join("page.html"));
    fs::create_dir(folder.join("sheets")).unwrap();
    fs::write(&script, SCRIPT).unwrap();
    symlink(&script, &page).unwrap();
    check_refused(&page, &folder.join("sheets"), &script);
}

#[test]
fn an_old_page_is_written_over() {
    let folder = empty_folder("overwrite-page");
    let (script, page) = (folder.join("sheet.php"), folder.join("page.html"));
    fs::write(&script, SCRIPT).unwrap();
    fs::write(&page, SCRIPT).unwrap();
    let got = run(&["--html", page.to_str().unwrap(), folder.to_str().unwrap()]);
    assert_eq!((got.status, got.errors.as_str()), (Some(0), ""));
    assert!(fs::read_to_string(&page).unwrap().starts_with("<!DOCTYPE html>"));
    assert_eq!(fs::read_to_string(&script).unwrap(), SCRIPT);
}
