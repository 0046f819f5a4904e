//! A script and a place in it, as `at` and `cut` are called: named, read, and with all its tokens.

use std::path::Path;

use puretakoi::{Choices, Octal, Reading, TokenList};

use crate::commands::arguments::Call;
use crate::commands::octals::octals;
use crate::commands::options::PORTED;
use crate::commands::output::{complain, NOT_DONE};
use crate::commands::place::Place;
use crate::commands::pointed::Pointed;
use crate::files;
use crate::reading::form::with_lf_lines;
use crate::reading::sheet::Sheet;

/// A script that was read, and a byte of it.
#[derive(Debug)]
pub struct Pointing {
    /// The script's name.
    pub name: String,
    /// Its bytes as they stand.
    pub script: Vec<u8>,
    /// Its bytes as they are read, if that is otherwise: with an LF in the place of each CR that ends a line alone.
    lines: Option<Vec<u8>>,
    /// What `view` shows of it; none in the ported reading.
    sheet: Option<Sheet>,
    /// How nowdoc blocks are read, and what an octal escape over 377 is.
    pub choices: Choices,
    tokens: TokenList,
    byte: usize,
}

/// Does a verb's work on the script and the place that are named: the status, or what is wrong with the call.
pub fn run(call: &Call, work: fn(&Call, &Pointing) -> u8) -> Result<u8, String> {
    let (path, place) = operands(call)?;
    Ok(match Pointing::read(call, path, &place) {
        Ok(pointing) => work(call, &pointing),
        Err(fault) => {
            complain(&fault);
            NOT_DONE
        }
    })
}

/// The script and the place that are named; else a sentence on what is missing.
fn operands(call: &Call) -> Result<(&Path, Place), String> {
    let form = "write LINE:COLUMN, both from 1, or a byte's position, from 0";
    match &call.paths[..] {
        [] => Err("no script is named".to_string()),
        [_] => Err(format!("no place is named after the script: {}", form)),
        [path, word] => match Place::parse(word.as_os_str()) {
            Some(place) => Ok((path, place)),
            None => Err(format!("{} is no place: {}", files::name(word), form)),
        },
        _ => Err("more than a script and a place are named: name one of each".to_string()),
    }
}

impl Pointing {
    /// Reads a script, and finds a place in it; else a line on why that can't be.
    fn read(call: &Call, path: &Path, place: &Place) -> Result<Pointing, String> {
        let (script, name) = (files::read(path)?, files::name(path));
        let octals = octals(call, Octal::Manual);
        let sheet = (!call.has(&PORTED)).then(|| Sheet::read_by(&script, octals));
        let lines = sheet.as_ref().and_then(|_| with_lf_lines(&script));
        let read = lines.as_ref().unwrap_or(&script);
        let byte = place.byte(&name, read)?;
        let nowdocs = if sheet.is_some() { Reading::Sheet } else { Reading::Ported };
        let choices = Choices { nowdocs, octals };
        let tokens = TokenList::new(read, choices);
        Ok(Pointing { name, script, lines, sheet, choices, tokens, byte })
    }

    /// What is at the place.
    pub fn pointed(&self) -> Pointed<'_> {
        let script = self.lines.as_ref().unwrap_or(&self.script);
        Pointed::new(script, &self.tokens, self.sheet.as_ref(), self.byte)
    }
}
