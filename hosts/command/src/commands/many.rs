//! Many scripts read as sheets, several at a time, with a bar on the terminal.

use std::io::{self, Write};

use puretakoi::Octal;

use crate::commands::output::complain;
use crate::files::{self, Found};
use crate::jobs::in_order;
use crate::reading::sheet::{Sheet, Verdict};
use crate::showing::text::Totals;
use crate::terminal::{self, Bar};

/// Scripts, and how they are read.
pub struct Many<'a> {
    /// The scripts that were found.
    pub found: &'a [Found],
    /// How many are read at a time.
    pub jobs: usize,
    /// What an octal escape over 377 is.
    pub octals: Octal,
    /// Whether a sheet with a warning counts as refused.
    pub strict: bool,
}

/// What is kept of a script.
struct Seen<T> {
    verdict: Verdict,
    totals: Totals,
    made: T,
}

impl Many<'_> {
    /// Makes something of each sheet, by its number from 1 and its name, and hands it on in the scripts' order. What
    /// can't be read is told behind all sheets, where it is not lost among their rows.
    pub fn read<T: Send>(
        &self,
        make: impl Fn(usize, &str, &Sheet) -> T + Sync,
        mut take: impl FnMut(Verdict, T) -> io::Result<()>,
    ) -> io::Result<Totals> {
        let numbered: Vec<(usize, &Found)> = (1..).zip(self.found).collect();
        let mut progress = Progress::new(self.found.len());
        let mut taken = Ok(());
        let work = |(number, found): &(usize, &Found)| self.look(found, |name, sheet| make(*number, name, sheet));
        in_order(self.jobs, &numbered, work, |seen| {
            taken = progress.one_more(seen, &mut take);
            taken.is_ok()
        });
        taken?;
        progress.faults.iter().for_each(|fault| complain(fault));
        Ok(if self.strict { strictly(progress.totals) } else { progress.totals })
    }

    /// Reads a script and makes something of it.
    fn look<T>(&self, found: &Found, make: impl Fn(&str, &Sheet) -> T) -> Result<Seen<T>, String> {
        let path = found.as_ref().map_err(String::clone)?;
        let sheet = Sheet::read_by(&files::read(path)?, self.octals);
        let mut totals = Totals::default();
        totals.add(&sheet);
        Ok(Seen { verdict: sheet.verdict(), totals, made: make(&files::name(path), &sheet) })
    }
}

/// Counts where a sheet with a warning is refused.
fn strictly(totals: Totals) -> Totals {
    Totals { refused: totals.refused + totals.warned, warned: 0, ..totals }
}

/// How far the scripts are read.
struct Progress {
    totals: Totals,
    faults: Vec<String>,
    bar: Bar,
}

impl Progress {
    fn new(count: usize) -> Progress {
        let bar = Bar::new(count, count > 1 && terminal::is_terminal(terminal::ERRORS));
        Progress { totals: Totals::default(), faults: Vec::new(), bar }
    }

    /// Hands on what was made of a script, in the bar's place, and then shows the bar. If no one sees the bar, nothing
    /// is to be done.
    fn one_more<T>(
        &mut self,
        seen: Result<Seen<T>, String>,
        take: &mut impl FnMut(Verdict, T) -> io::Result<()>,
    ) -> io::Result<()> {
        write!(io::stderr(), "{}", self.bar.gone()).ok();
        match seen {
            Ok(seen) => {
                self.totals.join(&seen.totals);
                take(seen.verdict, seen.made)?;
            }
            Err(fault) => {
                self.totals.unread += 1;
                self.faults.push(fault);
            }
        }
        write!(io::stderr(), "{}", self.bar.one_more()).ok();
        Ok(())
    }
}
