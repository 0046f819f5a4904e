//! `at`: what is under the finger at a place of a script.

use crate::commands::arguments::Call;
use crate::commands::options::{COLUMNS, JSON, OCTAL, PORTED};
use crate::commands::output::written;
use crate::commands::pointing::{self, Pointing};
use crate::commands::{pointed_json, Verb};
use crate::terminal;

/// The verb.
pub const VERB: Verb = Verb {
    name: "at",
    groups: &[&[&PORTED], &[&JSON], &[&COLUMNS], &[&OCTAL]],
    operands: "FILE LINE:COLUMN|BYTE",
    about: "tells which token, row and cell of a sheet is at a place",
    more: "\
FILE is a script, - for standard input. Lines and columns count from 1, columns in bytes; a byte is a position, from 0.
In a block the row and the cell are told as view counts them, from 1. Then come the token, with its number from 1, its
first byte, its place, its value and the place before which it ends, and how many records were looked at to find it.
--json prints one object. Without --octal an octal escape over 377 is read as in PHP, with --ported too.
Status 1: the script is refused before or at the place. Status 3: PHP reads something else before or at the place.
Where both are so it is 1 if view has that refusal too, and 3 if only the library is refused.",
    run,
};

/// Tells what is at the place that is named.
fn run(call: &Call) -> Result<u8, String> {
    pointing::run(call, tell)
}

/// Prints what is at the place; the status.
fn tell(call: &Call, pointing: &Pointing) -> u8 {
    let pointed = pointing.pointed();
    let told = if call.has(&JSON) {
        pointed_json::object(&pointing.name, pointing.choices, &pointed)
    } else {
        let columns = call.number(&COLUMNS);
        let columns = columns.or_else(|| terminal::is_terminal(terminal::OUTPUT).then(terminal::columns));
        pointed.text(&pointing.name, columns)
    };
    written(&told, pointed.status())
}
