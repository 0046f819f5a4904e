//! The terminal: whether there is one, how wide it is, and a progress bar on it.

use std::env;
use std::fs::File;
use std::process::{Command, Stdio};

/// The bar's cells.
const CELLS: usize = 20;

/// Takes away what stands on the terminal's line.
const CLEAR: &str = "\r\x1b[K";

/// Standard output's number.
pub const OUTPUT: u8 = 1;

/// Standard error's number.
pub const ERRORS: u8 = 2;

/// Whether what bears the number is a terminal.
pub fn is_terminal(number: u8) -> bool {
    Command::new("test").args(["-t", &number.to_string()]).status().map_or(false, |status| status.success())
}

/// How many columns the terminal has: what COLUMNS says, or the terminal, else 80.
pub fn columns() -> usize {
    let said = env::var("COLUMNS").ok().and_then(|word| word.parse().ok());
    said.or_else(asked_columns).filter(|columns| *columns > 0).unwrap_or(80)
}

/// What the terminal answers: its lines and columns.
fn asked_columns() -> Option<usize> {
    let terminal = File::open("/dev/tty").ok()?;
    let answer = Command::new("stty").arg("size").stdin(terminal).stderr(Stdio::null()).output().ok()?;
    std::str::from_utf8(&answer.stdout).ok()?.split_whitespace().nth(1)?.parse().ok()
}

/// A progress bar: what it writes as the work goes on.
pub struct Bar {
    total: usize,
    done: usize,
    shown: bool,
}

impl Bar {
    /// A bar for so many scripts; it writes nothing unless it is to be shown.
    pub fn new(total: usize, shown: bool) -> Bar {
        Bar { total, done: 0, shown }
    }

    /// What to write before a line, so that the bar is gone.
    pub fn gone(&self) -> &'static str {
        if self.shown && self.done > 0 {
            CLEAR
        } else {
            ""
        }
    }

    /// What to write once a script more is done: the bar, or nothing where all are done.
    pub fn one_more(&mut self) -> String {
        self.done += 1;
        if !self.shown || self.done >= self.total {
            return String::new();
        }
        let full = self.done * CELLS / self.total;
        format!("[{}{}] {} of {}", "#".repeat(full), "-".repeat(CELLS - full), self.done, self.total)
    }
}

#[cfg(test)]
mod tests {
    use super::{Bar, CLEAR};

    #[test]
    fn the_bar_grows_and_goes() {
        let mut bar = Bar::new(4, true);
        assert_eq!(bar.gone(), "");
        assert_eq!(bar.one_more(), "[#####---------------] 1 of 4");
        assert_eq!(bar.gone(), CLEAR);
        assert_eq!(bar.one_more(), "[##########----------] 2 of 4");
        assert_eq!(bar.one_more(), "[###############-----] 3 of 4");
        assert_eq!(bar.one_more(), "");
    }

    #[test]
    fn a_hidden_bar_writes_nothing() {
        let mut bar = Bar::new(4, false);
        assert_eq!(bar.one_more(), "");
        assert_eq!(bar.gone(), "");
    }
}
