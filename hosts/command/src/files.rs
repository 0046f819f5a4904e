//! The scripts that the paths name: files as they are, folders with all that ends in .php, in any letter case, below
//! them, and `-` for standard input.

use std::ffi::OsStr;
use std::fs::{self, File};
use std::io::{self, Read};
use std::os::unix::fs::MetadataExt;
use std::path::{Path, PathBuf};

use puretakoi::limits::MOST_BYTES;

use crate::showing::shown::shown;

/// The path that stands for standard input, or for standard output where a file is written.
pub const STANDARD: &str = "-";

/// A script's path, or a line on what can't be read.
pub type Found = Result<PathBuf, String>;

/// The scripts of all paths, in the order of the paths; those of a folder sorted.
pub fn find(paths: &[PathBuf]) -> Vec<Found> {
    let is_folder = |path: &Path| !is_standard(path) && path.is_dir();
    paths.iter().flat_map(|path| if is_folder(path) { below(path) } else { vec![Ok(path.clone())] }).collect()
}

/// Whether a path stands for standard input or output.
pub fn is_standard(path: &Path) -> bool {
    path.as_os_str() == STANDARD
}

/// Whether a path is a script's by its ending.
pub fn is_script(path: &Path) -> bool {
    path.extension().map_or(false, |extension| extension.eq_ignore_ascii_case("php"))
}

/// Whether a path leads to one of the scripts, be it by another name or a link.
pub fn is_among(path: &Path, scripts: &[Found]) -> bool {
    let input = Path::new("/dev/stdin");
    scripts.iter().flatten().any(|script| is_same(path, if is_standard(script) { input } else { script }))
}

/// Whether two paths lead to one file, be it there or not.
pub fn is_same(one: &Path, other: &Path) -> bool {
    let file = |path: &Path| fs::metadata(path).ok().map(|found| (found.dev(), found.ino()));
    match (file(one), file(other)) {
        (None, None) => one == other || place(one).map_or(false, |found| place(other) == Some(found)),
        (one, other) => one == other,
    }
}

/// The place of a file that is not there: its folder and its name.
fn place(path: &Path) -> Option<(PathBuf, &OsStr)> {
    let folder = path.parent().filter(|folder| !folder.as_os_str().is_empty()).unwrap_or_else(|| Path::new("."));
    Some((fs::canonicalize(folder).ok()?, path.file_name()?))
}

/// The bytes of a script; of one that is too large no more than shows it.
pub fn read(path: &Path) -> Result<Vec<u8>, String> {
    let mut script = Vec::new();
    let taken = match is_standard(path) {
        true => take(io::stdin(), &mut script),
        false => File::open(path).and_then(|file| take(file, &mut script)),
    };
    taken.map(|_| script).map_err(|error| unreadable(path, &error))
}

/// Reads as many bytes as show whether a script is too large.
fn take(input: impl Read, script: &mut Vec<u8>) -> io::Result<usize> {
    input.take(MOST_BYTES as u64 + 1).read_to_end(script)
}

/// A path as it is shown.
pub fn name(path: &Path) -> String {
    match is_standard(path) {
        true => "standard input".to_string(),
        false => shown(path.to_string_lossy().as_bytes()),
    }
}

/// All scripts below a folder, sorted, and a line for each folder that can't be read.
fn below(folder: &Path) -> Vec<Found> {
    let (mut scripts, mut faults, mut folders) = (Vec::new(), Vec::new(), vec![folder.to_path_buf()]);
    while let Some(folder) = folders.pop() {
        if let Err(error) = look_into(&folder, &mut scripts, &mut folders) {
            faults.push(unreadable(&folder, &error));
        }
    }
    if scripts.is_empty() && faults.is_empty() {
        faults.push(format!("no .php file is below {}: name a folder that holds sheets", name(folder)));
    }
    scripts.sort();
    faults.sort();
    scripts.into_iter().map(Ok).chain(faults.into_iter().map(Err)).collect()
}

/// Sorts a folder's entries into scripts and folders; links to folders are not followed.
fn look_into(folder: &Path, scripts: &mut Vec<PathBuf>, folders: &mut Vec<PathBuf>) -> io::Result<()> {
    for entry in fs::read_dir(folder)? {
        let entry = entry?;
        let path = entry.path();
        if entry.file_type()?.is_dir() {
            folders.push(path);
        } else if is_script(&path) && may_be_read(&path) {
            scripts.push(path);
        }
    }
    Ok(())
}

/// Whether reading a path ends: it is a file, or is told of when it is read.
fn may_be_read(path: &Path) -> bool {
    fs::metadata(path).map_or(true, |found| found.is_file())
}

/// A line on what can't be read.
pub fn unreadable(path: &Path, error: &io::Error) -> String {
    format!("can't read {}: {}; mend the path or its permissions", name(path), error)
}
