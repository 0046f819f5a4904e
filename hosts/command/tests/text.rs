//! One script: its rows and its refusal, held to stored outputs that were written by hand.

mod common;

use common::{empty_folder, run, stored, Run};

/// The output of one script must be the stored one of its name.
fn check(path: &str, options: &[&str], status: i32) {
    let name = path.rsplit('/').next().unwrap_or(path).trim_end_matches(".php");
    check_stored(path, name, options, status);
}

/// The output of one script must be a stored one.
fn check_stored(path: &str, name: &str, options: &[&str], status: i32) {
    let want = Run { status: Some(status), out: stored(name), errors: String::new() };
    let got = run(&[options, &[path]].concat());
    assert_eq!(got.out, want.out, "{}", path);
    assert_eq!(got, want, "{}", path);
}

#[test]
fn rows_tabs_and_empty_blocks() {
    check("sheets/tabs.php", &[], 0);
}

#[test]
fn breaks_of_two_bytes() {
    check("sheets/crlf.php", &[], 0);
}

#[test]
fn rows_are_cut_to_the_width() {
    check("sheets/wide.php", &["-w", "19"], 0);
    let uncut = run(&["sheets/wide.php"]).out;
    assert!(uncut.contains("\n2 |0123456789abcdefg\n"), "{}", uncut);
    assert_eq!(run(&["-w", "20", "sheets/wide.php"]).out, uncut);
}

#[test]
fn bytes_that_no_one_sees() {
    check("sheets/bytes.php", &[], 0);
}

#[test]
fn rows_that_start_with_the_label() {
    check("sheets/letters-behind-label.php", &[], 0);
}

#[test]
fn remarks_between_blocks() {
    check("../../../sheets/remarks.php", &[], 0);
    check("sheets/remark-forms.php", &[], 0);
}

#[test]
fn remarks_are_cut_to_the_width() {
    let shown = |columns| run(&["-w", columns, "sheets/remark-forms.php"]).out;
    assert_eq!(shown("12"), stored("remark-forms"));
    assert_eq!(shown("11"), stored("remark-forms").replace(" \\x1B[1mb\n", " \\x1B[1…\n"));
    assert!(shown("10").contains("\n  |/* in …\n"), "{}", shown("10"));
}

#[test]
fn refusals_of_what_is_open() {
    for name in ["string-open", "single-open", "string-part-open", "command-open", "heredoc-open", "bracket-open"] {
        check(&format!("sheets/{}.php", name), &[], 1);
    }
    check("../../../sheets/faulty/closer-missing.php", &[], 1);
    check("sheets/label-in-other-case.php", &[], 1);
    check("sheets/label-behind-row.php", &[], 1);
    check("../../../sheets/faulty/label-with-letters.php", &[], 1);
    check("sheets/remark-open.php", &[], 1);
    check("../../../sheets/faulty/remark-not-closed.php", &[], 1);
}

#[test]
fn refusals_of_escapes() {
    check("sheets/unicode.php", &[], 1);
}

/// Without an option, and by the manual's octals, an escape over 377 is told by a note; by the Rust's it is refused.
#[test]
fn octal_escapes() {
    check("sheets/octal.php", &[], 3);
    check("sheets/octal.php", &["--octal", "manual"], 3);
    check_stored("sheets/octal.php", "octal-rust", &["--octal", "rust"], 1);
    assert_eq!(run(&["--octal", "manual", "--octal=rust", "sheets/octal.php"]).out, stored("octal-rust"));
    // A note alone leaves the status.
    check("sheets/octal-legends.php", &[], 0);
    check("sheets/octal-legends.php", &["--strict"], 0);
    check_stored("sheets/octal-legends.php", "octal-legends-rust", &["--octal=rust"], 1);
}

#[test]
fn refusals_of_indentation() {
    check("../../../sheets/faulty/closer-with-spaces-and-tabs.php", &[], 1);
    check("../../../sheets/faulty/row-with-less-indentation.php", &[], 1);
    for name in ["spaces-for-tabs", "spaces-at-once", "heredoc-mixed", "label-row-with-less"] {
        check(&format!("sheets/{}.php", name), &[], 1);
    }
}

#[test]
fn refusal_of_depth() {
    check("sheets/deep.php", &[], 1);
}

#[test]
fn a_long_line_is_cut_around_its_mark() {
    check("sheets/long-line.php", &["-w", "40"], 3);
    check_stored("sheets/long-line.php", "long-line-rust", &["-w", "40", "--octal=rust"], 1);
}

#[test]
fn refusal_of_size() {
    let path = empty_folder("size").join("large.php");
    let mut script = b"<?php <<<'A'\no\nA;\n".to_vec();
    script.resize(65_537, b' ');
    std::fs::write(&path, script).unwrap();
    let path = path.to_str().unwrap();
    let want = format!(
        "{}\n\nBlock 1 at 1:7, label A: not indented, 1 row, widest 1 cell\n1 |o\n\n\
         refused 11 at 1:1: there are more than 65,536 bytes of script or pool, or more than 65,537 tokens. \
         Divide the script into smaller ones.\nOnly its first 65,536 bytes were read.\n\n\
         1 refusal, nothing is read from 4:65519 on. Read: 1 block, 1 row.\n",
        path
    );
    assert_eq!(run(&[path]), Run { status: Some(1), out: want, errors: String::new() });
}
