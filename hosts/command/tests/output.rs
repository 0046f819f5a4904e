//! Standard output that takes nothing: a line tells of it, unless its reader is gone.

mod common;

use std::fs::OpenOptions;
use std::process::{Command, Stdio};

use common::tests_folder;

/// Calls that write a text as a whole, lines with a summary, and tokens as they come.
const CALLS: [&[&str]; 13] = [
    &["--help"],
    &["view", "--help"],
    &["view", "sheets/tabs.php"],
    &["view", "sheets/many"],
    &["view", "--json", "sheets/many"],
    &["check", "sheets/many"],
    &["check", "--json", "sheets/many"],
    &["at", "sheets/tabs.php", "1:1"],
    &["cut", "sheets/octal.php", "2:6"],
    &["tokens", "sheets/tabs.php"],
    &["tokens", "--numbers", "sheets/tabs.php"],
    &["bytes"],
    &["bytes", "_"],
];

/// The status and the errors of a run whose standard output is lent.
fn run_into(out: Stdio, arguments: &[&str]) -> (Option<i32>, String) {
    let mut program = Command::new(env!("CARGO_BIN_EXE_puretakoi"));
    let done = program.args(arguments).current_dir(tests_folder()).stdout(out).stderr(Stdio::piped());
    let done = done.spawn().and_then(|child| child.wait_with_output()).expect("the program runs");
    (done.status.code(), String::from_utf8(done.stderr).expect("the program writes UTF-8"))
}

/// One behind the other: a program that starts meanwhile would hold the reader's end of the pipe for a moment.
#[test]
fn output_that_takes_nothing() {
    output_that_is_full_is_told();
    a_reader_that_is_gone_is_not_told();
}

fn output_that_is_full_is_told() {
    for arguments in CALLS {
        let full = OpenOptions::new().write(true).open("/dev/full").expect("a device that is full");
        let (status, errors) = run_into(full.into(), arguments);
        assert_eq!((status, errors.lines().count()), (Some(2), 1), "{:?}: {}", arguments, errors);
        assert!(errors.starts_with("puretakoi: standard output can't be written ("), "{}", errors);
        assert!(errors.ends_with("): make room for it\n"), "{}", errors);
    }
}

fn a_reader_that_is_gone_is_not_told() {
    for arguments in CALLS {
        let mut reader = Command::new("true").stdin(Stdio::piped()).spawn().expect("a reader");
        let pipe = reader.stdin.take().expect("a pipe");
        reader.wait().expect("the reader ends");
        assert_eq!(run_into(pipe.into(), arguments), (Some(2), String::new()), "{:?}", arguments);
    }
}
