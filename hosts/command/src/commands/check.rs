//! `check`: a line for each refusal, each warning and each note, as editors understand them.

use puretakoi::{Octal, Refusal, Span};

use crate::commands::arguments::Call;
use crate::commands::many::Many;
use crate::commands::octals::octals;
use crate::commands::options::{JOBS, JSON, OCTAL, STRICT};
use crate::commands::output::{print, status, unwritten};
use crate::commands::Verb;
use crate::files;
use crate::reading::fault::Fault;
use crate::reading::octal::{by_the_manual, Overflow, OCTAL_OVERFLOW};
use crate::reading::sheet::Sheet;
use crate::reading::warning::Warning;
use crate::showing::json;
use crate::showing::shown::shown;
use crate::showing::text::Totals;

/// The verb.
pub const VERB: Verb = Verb {
    name: "check",
    groups: &[&[&STRICT], &[&JSON], &[&JOBS], &[&OCTAL]],
    operands: "PATH..",
    about: "tells each refusal, each warning and each note on sheets in a line that editors understand",
    more: "\
PATH.. are scripts, - for standard input, or folders with all .php files below them. A line is file:line:column: word:
message, where the word is error for a refusal and warning for a warning; lines and columns count from 1, columns in
bytes. Of a good sheet nothing is said but notes. Last comes a summary. --json prints one object with all findings and
the counts.
Without --octal an octal escape over 377 is read as in PHP, and a line with the word note tells where; it leaves the
status as it is.",
    run,
};

/// A refusal, a warning or a note of a sheet.
#[derive(Debug, PartialEq, Eq)]
pub struct Finding {
    /// Where to look first.
    pub place: Span,
    /// `error`, `warning` or `note`.
    pub word: &'static str,
    /// The refusal's number; none for a warning or a note.
    pub number: Option<u32>,
    /// The refusal's, the warning's or the note's name.
    pub name: &'static str,
    /// What is there and what to do, in one line.
    pub message: String,
}

/// Checks the sheets that are asked for.
fn run(call: &Call) -> Result<u8, String> {
    if call.paths.is_empty() {
        return Err("no script is named".to_string());
    }
    let (strict, is_json) = (call.has(&STRICT), call.has(&JSON));
    let found = files::find(&call.paths);
    let (jobs, octals) = (call.number(&JOBS).unwrap_or(1), octals(call, Octal::Manual));
    let many = Many { found: &found, jobs, octals, strict };
    let form = if is_json { Finding::json } else { Finding::line };
    let make = |_number: usize, name: &str, sheet: &Sheet| {
        findings(sheet, strict).iter().map(|finding| form(finding, name)).collect::<Vec<String>>()
    };
    let mut objects = Vec::new();
    let read = many.read(make, |_verdict, told| {
        if !is_json {
            return print(&told.concat());
        }
        objects.extend(told);
        Ok(())
    });
    let told = read.and_then(|totals| {
        let last = if is_json { object(&objects, &totals) } else { totals.summary() + "\n" };
        print(&last).map(|_| totals)
    });
    Ok(told.map_or_else(|error| unwritten(&error), |totals| status(&totals)))
}

/// What is found in a sheet, in the script's order.
pub fn findings(sheet: &Sheet, strict: bool) -> Vec<Finding> {
    let faults = sheet.faults.iter().map(refused);
    let warnings = sheet.warnings.iter().map(|warning| warned(warning, strict));
    let mut findings: Vec<Finding> = faults.chain(warnings).chain(sheet.notes.iter().map(noted)).collect();
    findings.sort_by_key(|finding| finding.place.position);
    findings
}

/// A refusal with all that is told of it.
pub fn refused(fault: &Fault) -> Finding {
    let alone = refused_alone(fault.refusal);
    let guess = "It stands behind another refusal, where the reading is a guess.".to_string();
    let guess = Some(guess).filter(|_| fault.is_guess);
    let others = fault.detail.iter().chain(&guess).map(|sentence| format!(" {}", in_one_line(sentence)));
    let message = others.fold(alone.message, |message, sentence| message + &sentence);
    Finding { place: fault.place, message, ..alone }
}

/// A refusal of which nothing else is known.
pub fn refused_alone(refusal: Refusal) -> Finding {
    Finding {
        place: refusal.span,
        word: "error",
        number: Some(refusal.number),
        name: refusal.name(),
        message: format!("refused {}: {}. {}", refusal.number, refusal.meaning(), refusal.advice()),
    }
}

/// A refusal of which no more is known than its script.
pub fn refused_in(script: &[u8], refusal: Refusal) -> Finding {
    let alone = refused_alone(refusal);
    let behind = by_the_manual(script, refusal).map_or_else(String::new, |told| format!(" {}", told));
    Finding { message: alone.message + &behind, ..alone }
}

/// An octal escape over 377 that was read as PHP reads it.
fn noted(note: &Overflow) -> Finding {
    let guess = if note.is_guess { " It stands where the reading is a guess." } else { "" };
    let message = note.sentence() + guess;
    Finding { place: note.span, word: "note", number: None, name: OCTAL_OVERFLOW, message }
}

/// A warning, or the refusal that it is if --strict is given.
fn warned(warning: &Warning, strict: bool) -> Finding {
    let (word, behind) = if strict { ("error", " It is a warning, refused by --strict.") } else { ("warning", "") };
    Finding {
        place: warning.span,
        word,
        number: None,
        name: warning.kind.name(),
        message: in_one_line(&(warning.sentence() + behind)),
    }
}

/// A text without breaks.
fn in_one_line(text: &str) -> String {
    shown(text.as_bytes())
}

impl Finding {
    /// Its line, for a script of this name.
    pub fn line(&self, name: &str) -> String {
        format!("{}:{}: {}: {}\n", name, self.place, self.word, self.message)
    }

    /// It as an object, for a script of this name.
    pub fn json(&self, name: &str) -> String {
        let number = self.number.map_or_else(|| "null".to_string(), |number| number.to_string());
        let kind = vec![("word", json::string(self.word)), ("number", number), ("name", json::string(self.name))];
        let path = vec![("path", json::string(name))];
        let message = vec![("message", json::string(&self.message))];
        json::object(&[path, json::place_fields(self.place), kind, message].concat())
    }
}

/// All findings, a line each, and the counts as one object.
fn object(findings: &[String], totals: &Totals) -> String {
    let lines: Vec<String> = findings.iter().map(|finding| format!("\n{}", finding)).collect();
    let counts =
        [("ok", totals.good), ("warned", totals.warned), ("refused", totals.refused), ("unread", totals.unread)];
    let counts = counts.map(|(name, count)| (name, count.to_string())).to_vec();
    json::object(&[vec![("findings", format!("[{}]", lines.join(",")))], counts].concat()) + "\n"
}
