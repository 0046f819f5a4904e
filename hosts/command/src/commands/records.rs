//! `records`: writes the tokens of scripts into record files, and prints a record file.

use std::ffi::OsString;
use std::fs::{self, File};
use std::io::{self, Write};
use std::path::{Path, PathBuf};

use puretakoi::{limits, list_to_file, End, Progress, Refusal, Session};

use crate::commands::arguments::Call;
use crate::commands::choices::Choices;
use crate::commands::options::{OCTAL, PRINT, SHEET};
use crate::commands::output::{complain, graver, ALL_GOOD, NOT_DONE, REFUSED};
use crate::commands::tokens::{choices, in_words};
use crate::commands::{record_file, Verb};
use crate::files;
use crate::reading::octal::by_the_manual;

/// The verb.
pub const VERB: Verb = Verb {
    name: "records",
    groups: &[&[&SHEET, &PRINT], &[&OCTAL]],
    operands: "FILE..",
    about: "writes the tokens of scripts into record files, and prints a record file",
    more: "\
Beside each script it writes FILE.records, 32 bytes a token, FILE.pool, their values, and FILE.records.choices, which
says by which reading and octals and of which bytes. Of a script that is refused or can't be read nothing is left, old
files neither. Without --octal an octal escape over 377 is refused.
With --print FILE is one record file. A token is a line as of puretakoi tokens; `end not stated` is said of the tokens
of a file that an older writer made, and always of the token of an empty script. A warning tells where its choices do
not fit it or the script has changed.",
    run,
};

/// The ending of a record file's name.
pub const RECORDS: &str = ".records";

/// The ending of a pool's name.
pub const POOL: &str = ".pool";

/// What stands behind a record file's name in that of its choices.
pub const CHOICES: &str = ".choices";

/// Why nothing was written, in a line, and the status.
struct Fault {
    line: String,
    status: u8,
}

/// Writes or prints what is asked for.
fn run(call: &Call) -> Result<u8, String> {
    if call.paths.is_empty() {
        return Err("no file is named".to_string());
    }
    if call.paths.iter().any(|path| files::is_standard(path)) {
        return Err("record files stand beside their script, and standard input has no place: name a file".to_string());
    }
    if call.has(&PRINT) && call.has(&OCTAL) {
        return Err("--print and --octal don't go together: give one of them".to_string());
    }
    if call.has(&PRINT) {
        return match &call.paths[..] {
            [path] => Ok(record_file::print(path)),
            _ => Err("more than one file is named behind --print: name one".to_string()),
        };
    }
    check_outputs(&call.paths)?;
    let choices = choices(call);
    Ok(call.paths.iter().map(|script| write_or_tell(script, choices)).fold(ALL_GOOD, graver))
}

/// Whether no script would be lost to a file that is written; else a sentence on it.
fn check_outputs(scripts: &[PathBuf]) -> Result<(), String> {
    let found: Vec<files::Found> = scripts.iter().cloned().map(Ok).collect();
    let lost = scripts.iter().flat_map(|script| outputs(script)).find(|output| files::is_among(output, &found));
    match lost {
        Some(output) => {
            Err(format!("{} is one of the scripts and would be written over: rename it", files::name(&output)))
        }
        None => Ok(()),
    }
}

/// The files that belong to a script: the choices come last, so that they are there only if the others are.
fn outputs(script: &Path) -> [PathBuf; 3] {
    let records = with_ending(script, RECORDS);
    let choices = with_ending(&records, CHOICES);
    [with_ending(script, POOL), records, choices]
}

/// The name with an ending behind it.
pub fn with_ending(name: &Path, ending: &str) -> PathBuf {
    let mut long = OsString::from(name);
    long.push(ending);
    PathBuf::from(long)
}

/// Writes the files of a script. If that can't be done, what an earlier run left is removed, and a line says why; the
/// status.
fn write_or_tell(script: &Path, choices: puretakoi::Choices) -> u8 {
    match write(script, choices) {
        Ok(()) => ALL_GOOD,
        Err(fault) => {
            complain(&format!("{}{}", fault.line, remove_old(script)));
            fault.status
        }
    }
}

fn write(script: &Path, choices: puretakoi::Choices) -> Result<(), Fault> {
    let source = files::read(script).map_err(|line| Fault { line, status: NOT_DONE })?;
    let refused = |refusal: Refusal| Fault {
        line: format!("{}: {}", files::name(script), in_words(refusal, &by_the_manual(&source, refusal))),
        status: REFUSED,
    };
    let (list, pool) = tables(&source, choices).map_err(refused)?;
    let file = list_to_file(&list).map_err(refused)?;
    let name = files::name(script.file_name().map_or(script, Path::new));
    let choices = Choices::new(choices, name, &source, file.len() / RECORD_BYTES, pool.len()).text();
    put(script, [&pool, &file, choices.as_bytes()]).map_err(|(path, error)| Fault {
        line: format!("can't write {}: {}; make room for it, or mend its permissions", files::name(&path), error),
        status: NOT_DONE,
    })
}

/// How many bytes a record has in a file.
const RECORD_BYTES: usize = 32;

/// List and pool of a whole script, each up to its mark. They begin with all the room that a script can need.
fn tables(source: &[u8], choices: puretakoi::Choices) -> Result<(Vec<u32>, Vec<u8>), Refusal> {
    let mut session = Session::fresh(choices);
    let mut list = vec![0; 8 * limits::MOST_TOKENS];
    let mut pool = vec![0; limits::MOST_BYTES];
    while session.walk(source, End::Announced, u32::MAX, &mut list, &mut pool)? == Progress::Done {}
    list.truncate(8 * session.tokens() as usize);
    pool.truncate(session.bytes() as usize);
    Ok((list, pool))
}

/// Puts the files of a script into their places. All are written in full beside them first, and the old choices go
/// before a file is replaced: at no time is there a half of a file, or are there choices beside other records.
fn put(script: &Path, parts: [&[u8]; 3]) -> Result<(), (PathBuf, io::Error)> {
    let places = outputs(script);
    let written = write_aside(&places, parts).and_then(|_| {
        let [_pool, _records, choices] = &places;
        remove(choices).map_err(|error| (choices.clone(), error))?;
        places.iter().try_for_each(|place| fs::rename(aside(place), place).map_err(|error| (place.clone(), error)))
    });
    if written.is_err() {
        places.iter().for_each(|place| drop(fs::remove_file(aside(place))));
    }
    written
}

/// Writes each part beside its place.
fn write_aside(places: &[PathBuf; 3], parts: [&[u8]; 3]) -> Result<(), (PathBuf, io::Error)> {
    places.iter().zip(parts).try_for_each(|(place, part)| {
        let mut file = File::create(aside(place)).map_err(|error| (place.clone(), error))?;
        file.write_all(part).and_then(|_| file.sync_all()).map_err(|error| (place.clone(), error))
    })
}

/// Where a file stands until it is whole.
fn aside(place: &Path) -> PathBuf {
    with_ending(place, &format!(".{}.tmp", std::process::id()))
}

/// Removes a file; whether it was there.
fn remove(path: &Path) -> io::Result<bool> {
    match fs::remove_file(path) {
        Ok(()) => Ok(true),
        Err(error) if error.kind() == io::ErrorKind::NotFound => Ok(false),
        Err(error) => Err(error),
    }
}

/// Removes what an earlier run left beside a script, and says so behind a semicolon.
fn remove_old(script: &Path) -> String {
    let (mut removed, mut left) = (Vec::new(), String::new());
    for path in outputs(script) {
        let name = files::name(&path);
        match remove(&path) {
            Ok(true) => removed.push(name),
            Ok(false) => {}
            Err(error) => left += &format!("; {} is old and can't be removed ({}): remove it", name, error),
        }
    }
    match &removed[..] {
        [] => left,
        removed => format!("; old files are removed: {}{}", removed.join(", "), left),
    }
}
