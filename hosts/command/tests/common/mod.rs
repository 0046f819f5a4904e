//! Runs the program, from the folder of the tests.

#![allow(dead_code)]

pub mod json;
pub mod markup;
pub mod troubled;

use std::fs;
use std::io::Write;
use std::path::{Path, PathBuf};
use std::process::{Command, Stdio};

/// What a run gave.
#[derive(Debug, PartialEq, Eq)]
pub struct Run {
    pub status: Option<i32>,
    pub out: String,
    pub errors: String,
}

pub fn tests_folder() -> PathBuf {
    PathBuf::from(env!("CARGO_MANIFEST_DIR")).join("tests")
}

/// Runs the verb view.
pub fn run(arguments: &[&str]) -> Run {
    call(&[&["view"], arguments].concat())
}

/// Runs the program with any words.
pub fn call(words: &[&str]) -> Run {
    call_on(words, b"")
}

/// Runs the program with bytes on its standard input.
pub fn call_on(words: &[&str], input: &[u8]) -> Run {
    let (status, out, errors) = call_for_bytes(words, input);
    Run { status, out: String::from_utf8(out).expect("the program writes UTF-8"), errors }
}

/// Runs the program with bytes on its standard input: the status, what it writes, and its errors.
pub fn call_for_bytes(words: &[&str], input: &[u8]) -> (Option<i32>, Vec<u8>, String) {
    let mut program = Command::new(env!("CARGO_BIN_EXE_puretakoi"));
    let program = program.args(words).current_dir(tests_folder());
    let program = program.stdin(Stdio::piped()).stdout(Stdio::piped()).stderr(Stdio::piped());
    let mut child = program.spawn().expect("the program runs");
    // A program that reads no input may have ended.
    child.stdin.take().map(|mut pipe| pipe.write_all(input));
    let done = child.wait_with_output().expect("the program ends");
    let errors = String::from_utf8(done.stderr).expect("the program tells errors in UTF-8");
    (done.status.code(), done.stdout, errors)
}

pub fn stored(name: &str) -> String {
    fs::read_to_string(tests_folder().join("stored").join(format!("{}.txt", name))).expect("a stored output")
}

/// An empty folder of this name.
pub fn empty_folder(name: &str) -> PathBuf {
    let folder = PathBuf::from(env!("CARGO_TARGET_TMPDIR")).join(name);
    fs::remove_dir_all(&folder).ok();
    fs::create_dir_all(&folder).expect("a folder");
    folder
}

/// A path as a word.
pub fn word(path: &Path) -> &str {
    path.to_str().expect("a path in UTF-8")
}

/// The scripts of a folder.
pub fn scripts(folder: PathBuf) -> Vec<PathBuf> {
    let paths = fs::read_dir(folder).expect("a folder").map(|entry| entry.expect("an entry").path());
    paths.filter(|path| path.extension().map_or(false, |extension| extension == "php")).collect()
}

/// A sample sheet of the repository.
pub fn sample(name: &str) -> PathBuf {
    PathBuf::from(env!("CARGO_MANIFEST_DIR")).join("../../sheets").join(name)
}
