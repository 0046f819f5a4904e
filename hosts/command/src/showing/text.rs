//! A sheet as text: the whole of one, or a line for each of many and a summary.

use crate::reading::fault::{counted, Fault, Mark};
use crate::reading::heredoc::Heredoc;
use crate::reading::octal::Overflow;
use crate::reading::remark::Remark;
use crate::reading::sheet::{Block, Indentation, Part, Sheet, Verdict};
use crate::reading::warning::Warning;
use crate::showing::shown::{cut, marked, shown};

/// The fewest columns that a row is cut to.
const FEWEST_COLUMNS: usize = 2;

/// How many sheets of which kind, with what is in them.
#[derive(Clone, Copy, Debug, Default, PartialEq, Eq)]
pub struct Totals {
    /// Sheets that were read to their end without a warning.
    pub good: usize,
    /// Sheets that were read to their end with a warning.
    pub warned: usize,
    /// Sheets that were refused.
    pub refused: usize,
    /// Files that could not be read.
    pub unread: usize,
    /// What is in all sheets.
    pub held: Held,
}

/// How much is in sheets.
#[derive(Clone, Copy, Debug, Default, PartialEq, Eq)]
pub struct Held {
    /// Nowdoc blocks.
    pub blocks: usize,
    /// Rows of all blocks.
    pub rows: usize,
    /// Heredoc blocks.
    pub heredocs: usize,
    /// Remarks.
    pub remarks: usize,
}

impl Held {
    /// How much is in a sheet.
    pub fn of(sheet: &Sheet) -> Held {
        Held {
            blocks: sheet.blocks.len(),
            rows: sheet.rows(),
            heredocs: sheet.heredocs.len(),
            remarks: sheet.remarks.len(),
        }
    }

    /// Blocks and rows, and heredocs and remarks where there are some.
    pub fn in_words(&self) -> String {
        let some = |count: usize, thing: &str| match count {
            0 => String::new(),
            count => format!(", {}", counted(count, thing)),
        };
        let (heredocs, remarks) = (some(self.heredocs, "heredoc"), some(self.remarks, "remark"));
        format!("{}, {}{}{}", counted(self.blocks, "block"), counted(self.rows, "row"), heredocs, remarks)
    }
}

impl Totals {
    /// Counts a sheet.
    pub fn add(&mut self, sheet: &Sheet) {
        let mut alone = Totals { held: Held::of(sheet), ..Totals::default() };
        match sheet.verdict() {
            Verdict::Ok => alone.good = 1,
            Verdict::Warned => alone.warned = 1,
            Verdict::Refused => alone.refused = 1,
        }
        self.join(&alone);
    }

    /// Counts what others counted.
    pub fn join(&mut self, others: &Totals) {
        self.good += others.good;
        self.warned += others.warned;
        self.refused += others.refused;
        self.unread += others.unread;
        self.held.blocks += others.held.blocks;
        self.held.rows += others.held.rows;
        self.held.heredocs += others.held.heredocs;
        self.held.remarks += others.held.remarks;
    }

    /// The summary, in one line.
    pub fn summary(&self) -> String {
        let sheets = counted(self.good + self.warned + self.refused, "sheet");
        let unread = if self.unread == 0 { String::new() } else { format!(", {} not read", self.unread) };
        format!(
            "{}, {}: {} ok, {} warned, {} refused{}",
            sheets,
            self.held.in_words(),
            self.good,
            self.warned,
            self.refused,
            unread
        )
    }
}

/// One sheet as a whole: its blocks, heredocs and remarks, its notes, warnings and refusals, and how far it was read.
pub fn whole(path: &str, sheet: &Sheet, columns: Option<usize>) -> String {
    whole_with(path, sheet, columns, &|block| numbered_rows(block, columns).collect())
}

/// One sheet as a whole, with what `block_lines` makes of each block below the block's name.
pub(crate) fn whole_with(
    path: &str,
    sheet: &Sheet,
    columns: Option<usize>,
    block_lines: &dyn Fn(&Block) -> Vec<String>,
) -> String {
    let mut lines = vec![path.to_string(), String::new()];
    for part in sheet.parts() {
        lines.extend(part_lines(&part, columns, block_lines));
        lines.push(String::new());
    }
    for note in &sheet.notes {
        lines.extend(note_lines(note, columns));
        lines.push(String::new());
    }
    for warning in &sheet.warnings {
        lines.extend(warning_lines(warning, columns));
        lines.push(String::new());
    }
    for fault in &sheet.faults {
        lines.extend(refusal(fault, columns));
        lines.push(String::new());
    }
    lines.push(what_was_read(sheet));
    lines.join("\n") + "\n"
}

/// A block with its lines, a heredoc's line, or a remark with its lines.
fn part_lines(part: &Part, columns: Option<usize>, block_lines: &dyn Fn(&Block) -> Vec<String>) -> Vec<String> {
    match part {
        Part::Block(block, number) => {
            let name = format!("{}: {}", block_name(block, *number), block_form(block));
            std::iter::once(name).chain(block_lines(block)).collect()
        }
        Part::Heredoc(heredoc) => vec![heredoc_name(heredoc)],
        Part::Remark(remark) => std::iter::once(remark_name(remark)).chain(remark_lines(remark, columns)).collect(),
    }
}

/// One sheet among many: path, what is in it, and ok, the first warning or the first refusal.
pub fn line(path: &str, sheet: &Sheet) -> String {
    format!("{}: {}", path, verdict(sheet))
}

/// What is in a sheet, and ok, the first warning or the first refusal with the place to look at first.
pub fn verdict(sheet: &Sheet) -> String {
    let held = Held::of(sheet).in_words();
    match (sheet.faults.first(), sheet.warnings.first()) {
        (Some(fault), _) => {
            let refusal = fault.refusal;
            let others = others(sheet.faults.len(), "refusal");
            format!("{}, refused {} at {}: {}{}", held, refusal.number, fault.place, refusal.name(), others)
        }
        (None, Some(warning)) => {
            let others = others(sheet.warnings.len(), "warning");
            format!("{}, warned at {}: {}{}", held, warning.span, warning.told, others)
        }
        (None, None) => format!("{}, ok", held),
    }
}

/// How many there are besides the first, where there are more.
fn others(count: usize, thing: &str) -> String {
    match count {
        0 | 1 => String::new(),
        count => format!(", and {}", counted(count - 1, &format!("more {}", thing))),
    }
}

/// A block's number, place and label.
pub fn block_name(block: &Block, number: usize) -> String {
    format!("Block {} at {}, label {}{}", number, block.span, shown(&block.label), guess(block.is_guess))
}

/// A block's indentation, rows and widest row.
pub fn block_form(block: &Block) -> String {
    let indentation = match block.indentation {
        Indentation::None => "not indented".to_string(),
        Indentation::Spaces(amount) => format!("indented by {}", counted(amount as usize, "space")),
        Indentation::Tabs(amount) => format!("indented by {}", counted(amount as usize, "tab")),
    };
    format!("{}, {}, widest {}", indentation, counted(block.rows.len(), "row"), counted(block.widest(), "cell"))
}

/// How far a sheet was read.
pub fn what_was_read(sheet: &Sheet) -> String {
    let held = Held::of(sheet).in_words();
    let some = |count: usize, thing: &str| match count {
        0 => String::new(),
        count => format!(", {}", counted(count, thing)),
    };
    let notes = match sheet.notes.last() {
        Some(last) if last.is_last_told => format!(", the first {}", counted(sheet.notes.len(), "note")),
        _ => some(sheet.notes.len(), "note"),
    };
    let told = notes + &some(sheet.warnings.len(), "warning");
    let stopped = sheet.stopped.map_or_else(String::new, |span| format!(", nothing is read from {} on", span));
    match sheet.faults.len() {
        0 if sheet.stopped.is_none() => {
            format!("Read to the end, {}: {}{}.", counted(sheet.end as usize, "byte"), held, told)
        }
        count => format!("{}{}. Read: {}{}.", counted(count, "refusal"), stopped, held, told),
    }
}

/// A heredoc's place, label and lines.
pub fn heredoc_name(heredoc: &Heredoc) -> String {
    let lines = format!("lines {} to {}", heredoc.span.line, heredoc.last);
    format!(
        "Heredoc at {}, label {}: {}, not shown{}",
        heredoc.span,
        shown(&heredoc.label),
        lines,
        guess(heredoc.is_guess)
    )
}

/// A remark's place.
pub fn remark_name(remark: &Remark) -> String {
    format!("Remark at {}{}", remark.span, guess(remark.is_guess))
}

/// A word where the reading is a guess.
pub(crate) fn guess(is_guess: bool) -> &'static str {
    if is_guess {
        " (a guess)"
    } else {
        ""
    }
}

/// The rows, each behind its number.
fn numbered_rows(block: &Block, columns: Option<usize>) -> impl Iterator<Item = String> + '_ {
    let digits = block.rows.len().to_string().len();
    let room = columns.map(|columns| room(columns, digits));
    block.rows.iter().zip(1..).map(move |(row, number)| format!("{:>2$} |{}", number, cut(row, room), digits))
}

/// The lines of a remark, each behind a bar that no number stands before: they are no rows.
fn remark_lines(remark: &Remark, columns: Option<usize>) -> impl Iterator<Item = String> + '_ {
    let room = columns.map(|columns| room(columns, 1));
    remark.lines().map(move |line| format!("  |{}", cut(line, room)))
}

/// The columns that are left behind a number and its bar.
fn room(columns: usize, digits: usize) -> usize {
    columns.saturating_sub(digits + 2).max(FEWEST_COLUMNS)
}

/// A note: its line with a mark, what is there and what to do.
fn note_lines(note: &Overflow, columns: Option<usize>) -> Vec<String> {
    let mark = marked_line(&note.mark, columns).into_iter();
    mark.chain([format!("note at {}{}: {}", note.span, guess(note.is_guess), note.sentence())]).collect()
}

/// A warning: its line with a mark, what is there and what to do.
fn warning_lines(warning: &Warning, columns: Option<usize>) -> Vec<String> {
    let mark = warning.mark.iter().flat_map(|mark| marked_line(mark, columns));
    mark.chain([format!("warning at {}: {}", warning.span, warning.sentence())]).collect()
}

/// A refusal: its line with a mark, what it is and what to do, and where what is open began.
fn refusal(fault: &Fault, columns: Option<usize>) -> Vec<String> {
    let mut lines = Vec::new();
    lines.extend(fault.mark.iter().flat_map(|mark| marked_line(mark, columns)));
    lines.push(fault.sentence());
    lines.extend(fault.detail.clone());
    lines.extend(fault.opening.iter().chain(&fault.suspect).flat_map(|mark| marked_line(mark, columns)));
    lines
}

/// A line of the script behind its number, and the mark below it.
pub fn marked_line(mark: &Mark, columns: Option<usize>) -> [String; 2] {
    let number = mark.line.to_string();
    let line = marked(&mark.text, mark.at, columns.map(|columns| room(columns, number.len())));
    let gap = " ".repeat(line.before);
    [format!("{} |{}", number, line.text), format!("{:>1$} |{2}^", "", number.len(), gap)]
}
