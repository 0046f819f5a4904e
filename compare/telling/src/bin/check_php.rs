//! Holds what is told to what PHP said, stored: octal escapes under the manual's choice, and what each byte counts as:
//! `check_php FOLDER`.

use std::path::PathBuf;
use std::process::exit;

fn main() {
    oracle::quiet_panics();
    let folder = PathBuf::from(std::env::args().nth(1).expect("check_php FOLDER"));
    let mut teller = telling::Teller::default();
    let mut good =
        cases::php::compare("PHP's octal escapes", &folder.join("octals.txt"), |call| Some(teller.told(call)));
    good &= cases::classes::compare("PHP's bytes", &folder.join("bytes.txt"), telling::classes::classes_of);
    exit(if good { 0 } else { 1 });
}
