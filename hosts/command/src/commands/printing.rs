//! What `view` prints of its sheets, in their order.

use std::io::{self, Write};

use crate::commands::output::print;
use crate::showing::html::Section;
use crate::showing::text::Totals;

/// The form of what is printed.
#[derive(Clone, Copy, Debug, PartialEq, Eq)]
pub enum Form {
    /// A line for each sheet.
    Lines,
    /// Each sheet as text.
    Text,
    /// Each sheet in braille cells.
    Braille,
    /// An array of objects.
    Json,
}

/// What is made of a sheet.
pub struct Made {
    /// What is printed of it, in the form that is asked for.
    pub shown: String,
    /// Its line, where it is refused or has a warning.
    pub trouble: Option<String>,
    /// Its section of a page, where one is asked for.
    pub section: Option<Section>,
    /// Its pages for an embosser, where they are asked for.
    pub pages: Option<String>,
}

/// Prints sheets one behind another, and keeps what goes into files.
pub struct Printer {
    form: Form,
    /// Whether one script alone is named.
    is_one: bool,
    /// Whether standard output is a file's place, so that lines go to standard error.
    to_errors: bool,
    is_first: bool,
    troubles: String,
    /// The sections of the page.
    pub sections: Vec<Section>,
    /// The pages for an embosser.
    pub pages: String,
}

impl Printer {
    /// A printer before its first sheet.
    pub fn new(form: Form, is_one: bool, to_errors: bool) -> Printer {
        let (troubles, pages) = (String::new(), String::new());
        Printer { form, is_one, to_errors, is_first: true, troubles, sections: Vec::new(), pages }
    }

    /// Prints a sheet.
    pub fn sheet(&mut self, made: Made) -> io::Result<()> {
        let before = match (self.form, self.is_first) {
            (Form::Json, true) => "[\n",
            (Form::Json, false) => ",\n",
            (Form::Text | Form::Braille, false) => "\n",
            _ => "",
        };
        self.is_first = false;
        self.sections.extend(made.section);
        self.pages.extend(made.pages);
        self.troubles.extend(made.trouble);
        self.print(&format!("{}{}", before, made.shown))
    }

    /// Prints what stands behind all sheets: of several the lines of those in trouble, and the summary.
    pub fn end(&mut self, totals: &Totals) -> io::Result<()> {
        let summary = totals.summary();
        match self.form {
            Form::Json if self.is_first => self.print("[]\n"),
            Form::Json => self.print("\n]\n"),
            Form::Lines => self.print(&format!("{}\n", summary)),
            Form::Text | Form::Braille if self.is_one => Ok(()),
            Form::Text | Form::Braille => {
                let gap = if self.is_first { "" } else { "\n" };
                self.print(&format!("{}{}{}\n", gap, self.troubles, summary))
            }
        }
    }

    fn print(&self, text: &str) -> io::Result<()> {
        match self.to_errors {
            true => io::stderr().write_all(text.as_bytes()),
            false => print(text),
        }
    }
}
