//! How a command speaks: its statuses, what it prints, and its lines on standard error.

use std::io::{self, Write};

use crate::showing::text::Totals;

/// All is read and good.
pub const ALL_GOOD: u8 = 0;

/// A sheet is refused.
pub const REFUSED: u8 = 1;

/// The call is wrong, a file can't be read or written, or nothing is there to cut.
pub const NOT_DONE: u8 = 2;

/// A sheet is read with a warning.
pub const WARNED: u8 = 3;

/// The graver of two statuses: not done, then refused, then warned.
pub fn graver(one: u8, other: u8) -> u8 {
    let grave = [NOT_DONE, REFUSED, WARNED];
    grave.into_iter().find(|status| [one, other].contains(status)).unwrap_or(ALL_GOOD)
}

/// The status that sheets come to.
pub fn status(totals: &Totals) -> u8 {
    match totals {
        Totals { unread: 1.., .. } => NOT_DONE,
        Totals { refused: 1.., .. } => REFUSED,
        Totals { warned: 1.., .. } => WARNED,
        _ => ALL_GOOD,
    }
}

/// Writes a text; the status, unless no one takes the text.
pub fn written(text: &str, status: u8) -> u8 {
    written_bytes(text.as_bytes(), status)
}

/// Writes bytes, which need not be characters; the status, unless no one takes them.
pub fn written_bytes(bytes: &[u8], status: u8) -> u8 {
    print_bytes(bytes).map_or_else(|error| unwritten(&error), |_| status)
}

/// Tells why standard output takes nothing, unless its reader is gone.
pub fn unwritten(error: &io::Error) -> u8 {
    if error.kind() != io::ErrorKind::BrokenPipe {
        complain(&format!("standard output can't be written ({}): make room for it", error));
    }
    NOT_DONE
}

/// Writes a text to standard output.
pub fn print(text: &str) -> io::Result<()> {
    print_bytes(text.as_bytes())
}

fn print_bytes(bytes: &[u8]) -> io::Result<()> {
    let mut out = io::stdout();
    out.write_all(bytes)?;
    out.flush()
}

/// One line on standard error; if no one takes it, the status still tells.
pub fn complain(fault: &str) {
    writeln!(io::stderr(), "puretakoi: {}", fault).ok();
}
