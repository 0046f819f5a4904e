//! A record file, printed for a person with what its choices say.

use std::fs;
use std::io::{self, BufWriter, Write};
use std::path::{Path, PathBuf};

use puretakoi::{file_to_list, kinds, records, Record};

use crate::commands::choices::Choices;
use crate::commands::output::{complain, unwritten, ALL_GOOD, NOT_DONE, REFUSED, WARNED};
use crate::commands::records::{with_ending, CHOICES, POOL, RECORDS};
use crate::commands::token;
use crate::files;
use crate::reading::fault::counted;

/// A record file and what stands beside it.
struct RecordFile {
    list: Vec<u32>,
    pool: Option<Vec<u8>>,
    choices: Option<Choices>,
}

/// Prints a record file; the status.
pub fn print(path: &Path) -> u8 {
    let file = match RecordFile::read(path) {
        Ok(file) => file,
        Err((line, status)) => {
            complain(&line);
            return status;
        }
    };
    if let Err(error) = file.print(&mut BufWriter::new(io::stdout())) {
        return unwritten(&error);
    }
    let misfits = file.misfits(path);
    misfits.iter().for_each(|misfit| complain(&format!("warning: {}", misfit)));
    if misfits.is_empty() {
        ALL_GOOD
    } else {
        WARNED
    }
}

impl RecordFile {
    /// Reads all; else a line on what is wrong, and the status.
    fn read(path: &Path) -> Result<RecordFile, (String, u8)> {
        let bytes = fs::read(path).map_err(|error| (files::unreadable(path, &error), NOT_DONE))?;
        let list = list_of(&bytes).ok_or_else(|| {
            (format!("{} is no record file: give one that puretakoi records wrote", files::name(path)), REFUSED)
        })?;
        let pool = beside(path, POOL).map_or(Ok(None), |pool| read_beside(&pool))?;
        let place = with_ending(path, CHOICES);
        let choices = match read_beside(&place)? {
            None => None,
            Some(bytes) => Some(Choices::parse(&String::from_utf8_lossy(&bytes)).ok_or_else(|| {
                let line = format!("{} says no choices: remove it, or write the records anew", files::name(&place));
                (line, REFUSED)
            })?),
        };
        Ok(RecordFile { list, pool, choices })
    }

    /// How many tokens it has.
    fn tokens(&self) -> usize {
        records(&self.list).count()
    }

    /// A line for each token, and last how many there are and by which reading.
    fn print(&self, out: &mut impl Write) -> io::Result<()> {
        for record in records(&self.list) {
            writeln!(out, "{}", token::record_line(&record, self.pool.as_deref()))?;
        }
        let pool = if self.pool.is_none() { ", no pool beside the file" } else { "" };
        let reading = match &self.choices {
            Some(choices) => {
                let octals = if choices.octal == "manual" { " with the manual's octals" } else { "" };
                format!(", by the {} reading{} of {}", choices.reading, octals, choices.script)
            }
            None => ", no choices beside the file".to_string(),
        };
        writeln!(out, "{}{}{}", counted(self.tokens(), "token"), pool, reading)?;
        out.flush()
    }

    /// Where the choices do not fit the file, its pool or its script, each in a sentence.
    fn misfits(&self, path: &Path) -> Vec<String> {
        let choices = match &self.choices {
            Some(choices) => choices,
            None => return Vec::new(),
        };
        let name = files::name(&with_ending(path, CHOICES));
        let told = |there: usize, said: usize, thing: &str| {
            let line = || {
                format!("{} tells of {}, and there are {}: write the records anew", name, counted(said, thing), there)
            };
            (there != said).then(line)
        };
        let tokens = told(self.tokens(), choices.tokens, "token");
        let values = self.pool.as_ref().and_then(|pool| told(pool.len(), choices.values, "value byte"));
        let script =
            beside(path, "").filter(|script| fs::read(script).map_or(false, |source| !choices.are_of(&source)));
        let script = script.map(|script| {
            format!("{} has changed since its records were written: write them anew", files::name(&script))
        });
        [tokens, values, script].into_iter().flatten().collect()
    }
}

/// The list of a record file, if each of its records is of a kind that there is.
fn list_of(file: &[u8]) -> Option<Vec<u32>> {
    let is_token = |record: Record| (kinds::INLINE_HTML..=kinds::COMMENT).contains(&record.kind);
    file_to_list(file).ok().filter(|list| records(list).all(is_token))
}

/// The file that belongs to a record file: its name with another ending.
fn beside(path: &Path, ending: &str) -> Option<PathBuf> {
    let name = path.file_name()?.to_str()?.strip_suffix(RECORDS)?;
    Some(with_ending(&path.with_file_name(name), ending))
}

/// The bytes of a file beside a record file, if it is there; else a line on what is wrong, and the status.
fn read_beside(path: &Path) -> Result<Option<Vec<u8>>, (String, u8)> {
    match fs::read(path) {
        Ok(bytes) => Ok(Some(bytes)),
        Err(error) if error.kind() == io::ErrorKind::NotFound => Ok(None),
        Err(error) => Err((files::unreadable(path, &error), NOT_DONE)),
    }
}
