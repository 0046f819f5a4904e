//! `view`: shows sheets, and writes pages of them.

use std::fs;
use std::path::Path;

use puretakoi::Octal;

use crate::commands::arguments::Call;
use crate::commands::many::Many;
use crate::commands::octals::octals;
use crate::commands::options::{Choice, BRAILLE, BRF, COLUMNS, HTML, JOBS, JSON, OCTAL, REFUSED_FIRST, STRICT, TEXT};
use crate::commands::output::{complain, graver, print, status, unwritten, NOT_DONE};
use crate::commands::printing::{Form, Made, Printer};
use crate::commands::Verb;
use crate::files::{self, Found};
use crate::reading::sheet::{Sheet, Verdict};
use crate::showing::{braille, brf, html, json, text};
use crate::terminal;

/// The verb.
pub const VERB: Verb = Verb {
    name: "view",
    groups: &[
        &[&TEXT, &BRAILLE, &JSON],
        &[&HTML],
        &[&BRF],
        &[&COLUMNS],
        &[&JOBS],
        &[&REFUSED_FIRST],
        &[&STRICT],
        &[&OCTAL],
    ],
    operands: "PATH..",
    about: "shows the rows, the remarks, the notes, the warnings and the refusals of sheets",
    more: "\
PATH.. are scripts, - for standard input, or folders with all .php files below them. Of one script the whole is shown.
Of several each is shown, then come a line for each that is refused or has a warning and a summary. With --html or
--brf a line for each sheet and the summary are printed, unless a form is asked for too; where the file is standard
output, they go to standard error. --json prints one array of sheets.
Signs: → a tab, … the line goes on, \\x1B a control or a byte that is no character, \\u{AD} a character not seen.
A real → is shown as \\u{2192}, a real … as \\u{2026}, a backslash that would read as a sign as \\x5C.
Without --octal an octal escape over 377 is read as in PHP, and a note tells where; it leaves the status as it is.",
    run,
};

/// How sheets are to be shown.
struct View<'a> {
    call: &'a Call,
    form: Form,
    columns: Option<usize>,
}

/// Shows the sheets that are asked for. No script is lost to a file that is written.
fn run(call: &Call) -> Result<u8, String> {
    if call.paths.is_empty() {
        return Err("no script is named".to_string());
    }
    let found = files::find(&call.paths);
    check_outputs(call, &found)?;
    let columns = call.number(&COLUMNS).or_else(|| terminal::is_terminal(terminal::OUTPUT).then(terminal::columns));
    Ok(show(&View { call, form: form(call), columns }, &found))
}

/// The form that is asked for; lines alone where files are written.
fn form(call: &Call) -> Form {
    let asked = [(&TEXT, Form::Text), (&BRAILLE, Form::Braille), (&JSON, Form::Json)];
    let asked = asked.into_iter().find(|(choice, _form)| call.has(choice)).map(|(_choice, form)| form);
    let is_written = call.has(&HTML) || call.has(&BRF);
    asked.unwrap_or(if is_written { Form::Lines } else { Form::Text })
}

/// Whether what is written has a place of its own; else a sentence on what has not.
fn check_outputs(call: &Call, found: &[Found]) -> Result<(), String> {
    let outputs: Vec<(&Choice, &Path)> =
        [&HTML, &BRF].into_iter().filter_map(|choice| call.file(choice).map(|path| (choice, path))).collect();
    for (choice, path) in &outputs {
        let name = choice.names[0];
        if !files::is_standard(path) && files::is_among(path, found) {
            return Err(format!("{} is one of the scripts: name another path behind {}", files::name(path), name));
        }
        if files::is_standard(path) && form(call) != Form::Lines {
            return Err(format!("two things would go to standard output: name a file behind {}", name));
        }
    }
    match outputs[..] {
        [(_, page), (_, pages)] if files::is_same(page, pages) => {
            Err("--html and --brf would write one file: name another path behind one of them".to_string())
        }
        _ => Ok(()),
    }
}

/// Shows all sheets, then writes the files.
fn show(view: &View, found: &[Found]) -> u8 {
    let call = view.call;
    let is_one = matches!(&call.paths[..], [path] if files::is_standard(path) || !path.is_dir());
    let takes_output = [&HTML, &BRF].into_iter().any(|choice| call.file(choice).map_or(false, files::is_standard));
    let mut printer = Printer::new(view.form, is_one, takes_output);
    let (jobs, octals) = (call.number(&JOBS).unwrap_or(1), octals(call, Octal::Manual));
    let many = Many { found, jobs, octals, strict: call.has(&STRICT) };
    let mut kept = Vec::new();
    let read = many.read(
        |number, name, sheet| view.make(number, name, sheet),
        |verdict, made| match call.has(&REFUSED_FIRST) {
            true => {
                kept.push((verdict, made));
                Ok(())
            }
            false => printer.sheet(made),
        },
    );
    kept.sort_by_key(|(verdict, _made)| std::cmp::Reverse(*verdict));
    let shown = read.and_then(|totals| {
        kept.into_iter().try_for_each(|(_verdict, made)| printer.sheet(made))?;
        printer.end(&totals).map(|_| totals)
    });
    match shown {
        Ok(totals) => {
            let page = call.file(&HTML).map(|path| write(path, &html::page(&totals, &printer.sections)));
            let pages = call.file(&BRF).map(|path| write(path, &printer.pages));
            [page, pages].into_iter().flatten().fold(status(&totals), graver)
        }
        Err(error) => unwritten(&error),
    }
}

impl View<'_> {
    /// What is made of a sheet. One that only --strict refuses says so.
    fn make(&self, number: usize, name: &str, sheet: &Sheet) -> Made {
        let is_refused = self.call.has(&STRICT) && sheet.verdict() == Verdict::Warned;
        let (of_line, of_whole) =
            if is_refused { (", refused by --strict", "Refused by --strict.\n") } else { ("", "") };
        let line = text::line(name, sheet) + of_line + "\n";
        let shown = match self.form {
            Form::Lines => line.clone(),
            Form::Text => text::whole(name, sheet, self.columns) + of_whole,
            Form::Braille => braille::whole(name, sheet, self.columns) + of_whole,
            Form::Json => json::sheet(name, sheet),
        };
        Made {
            shown,
            trouble: Some(line).filter(|_| sheet.verdict() != Verdict::Ok),
            section: self.call.has(&HTML).then(|| html::section(name, number, sheet)),
            pages: self.call.has(&BRF).then(|| brf::sheet(name, sheet)),
        }
    }
}

/// Writes a file; the status of that alone.
fn write(path: &Path, text: &str) -> u8 {
    if files::is_standard(path) {
        return print(text).map_or_else(|error| unwritten(&error), |_| 0);
    }
    match fs::write(path, text) {
        Ok(()) => 0,
        Err(error) => {
            complain(&format!("can't write {}: {}; name a path that can be written", files::name(path), error));
            NOT_DONE
        }
    }
}
