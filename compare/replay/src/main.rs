//! Replays stored answers on the proved library: `replay FOLDER`. The folder's files hold cases, those of its `calls/`
//! calls, `php/octals.txt` what PHP made of octal escapes, and `php/bytes.txt` what it says of each byte.

mod cases_of;
mod record_files;
mod refusals;

use std::path::{Path, PathBuf};
use std::process::exit;

use cases::{Call, Case, Lookup, Told};

/// The list of calls has at least this many.
const LEAST_CALLS: usize = 13_600;

fn main() {
    let words: Vec<String> = std::env::args().skip(1).collect();
    let folder = match &words[..] {
        [folder] => Path::new(folder),
        _ => {
            eprintln!("replay FOLDER");
            exit(2)
        }
    };
    let mut good = refusals::all_given() & record_files::all_given();
    let files = files_of(folder);
    if files.is_empty() {
        println!("FAILED replay\n  {} holds no file of cases", folder.display());
        good = false;
    }
    for path in files {
        good &= replay_cases(&path);
    }
    good &= replay_calls(&folder.join("calls"));
    good &= cases::php::compare("replay PHP's octal escapes", &folder.join("php/octals.txt"), told);
    good &= cases::classes::compare("replay PHP's bytes", &folder.join("php/bytes.txt"), host::classes_of);
    exit(if good { 0 } else { 1 });
}

/// The files of answers in a folder, by name.
fn files_of(folder: &Path) -> Vec<PathBuf> {
    let entries = std::fs::read_dir(folder).map(|entries| entries.flatten().collect()).unwrap_or_else(|_| Vec::new());
    let mut files: Vec<PathBuf> = entries.iter().map(|entry| entry.path()).collect();
    files.retain(|path| path.extension().map_or(false, |ending| ending == "txt"));
    files.sort();
    files
}

fn replay_cases(path: &Path) -> bool {
    let mut case = Case::default();
    let name = path.file_name().unwrap_or_default().to_string_lossy();
    cases::file::compare(&format!("replay {}", name), path, |line, out| {
        let answer = match case.read(line) {
            Ok(()) => cases_of::answer_to(&case),
            Err(wrong) => cases_of::fault(&wrong),
        };
        answer.write(out);
    })
}

/// Replays every group, and sees to it that there are enough calls.
fn replay_calls(folder: &Path) -> bool {
    let (mut good, mut count) = (true, 0);
    for path in files_of(folder) {
        let group = path.file_stem().unwrap_or_default().to_string_lossy();
        match cases::file::compare_calls(&format!("replay {}", group), &path, given, found) {
            Some(calls) => count += calls,
            None => good = false,
        }
    }
    if good && count < LEAST_CALLS {
        println!("FAILED replay of calls\n  {} has {} calls, which is too few", folder.display(), count);
        return false;
    }
    good
}

/// Appends all that the library gives to a look-up.
fn found(lookup: &Lookup, out: &mut Vec<u8>) {
    match host::look_up(lookup) {
        Ok(seen) => seen.write(lookup, out),
        Err(wrong) => out.extend_from_slice(format!("fault {}", wrong).as_bytes()),
    }
}

/// What the library gives, where it has one of the forms.
fn told(call: &Call) -> Option<Told> {
    Told::of(call, &host::make(call).ok()?)
}

/// Appends all that the library gives.
fn given(call: &Call, out: &mut Vec<u8>) {
    match host::make(call) {
        Ok(given) => given.write(call, out),
        Err(wrong) => out.extend_from_slice(format!("fault {}", wrong).as_bytes()),
    }
}
