//! A sheet as pages for an embosser or a braille display, as a .brf file has them: North American Braille ASCII, 40
//! cells a line and 25 lines a page at most, CR and LF behind each line and a form feed behind each page. A character
//! of such a file has six dots, so a picture has two cells of three rows in each.

use crate::reading::fault::{counted, Fault};
use crate::reading::heredoc::Heredoc;
use crate::reading::octal::Overflow;
use crate::reading::remark::Remark;
use crate::reading::sheet::{Block, Part, Sheet};
use crate::reading::warning::Warning;
use crate::showing::picture::{strip_name, Picture, DOTS_WIDE};
use crate::showing::shown::shown;
use crate::showing::text::Held;
use crate::showing::ueb;
use puretakoi::Span;

/// The cells of a line.
const CELLS: usize = 40;

/// The lines of a page.
const LINES: usize = 25;

/// How many rows a character has.
const DOTS_HIGH: usize = 3;

/// What is kept on one page if it has room there: words and the picture below them.
struct Group {
    words: Vec<String>,
    picture: Vec<String>,
}

/// The pages of a sheet: its name and what it comes to, and then its parts.
pub fn sheet(path: &str, sheet: &Sheet) -> String {
    let mut pages = Pages { pages: vec![Vec::new()] };
    pages.add(&words(&heading(path, sheet)));
    for part in sheet.parts() {
        groups(&part).iter().for_each(|group| pages.add(group));
    }
    pages.text()
}

/// A sheet's name, its refusals and warnings or ok, its notes, and what is in it.
fn heading(path: &str, sheet: &Sheet) -> Vec<String> {
    let troubles = sheet.faults.iter().map(refused).chain(sheet.warnings.iter().map(warned));
    let mut told = vec![path.to_string()];
    told.extend(troubles);
    if told.len() == 1 {
        told.push("ok".to_string());
    }
    told.extend(sheet.notes.iter().map(noted));
    told.push(Held::of(sheet).in_words());
    told
}

/// A refusal, with the place to look at first.
fn refused(fault: &Fault) -> String {
    let (refusal, guess) = (fault.refusal, guess(fault.is_guess));
    let detail = fault.detail.iter().map(|detail| format!(" {}", detail)).collect::<String>();
    let told = format!("{}. {}{}", refusal.meaning(), refusal.advice(), detail);
    format!("refused {} at {}{}: {}", refusal.number, place(fault.place), guess, told)
}

/// A warning.
fn warned(warning: &Warning) -> String {
    format!("warned at {}: {}", place(warning.span), warning.sentence())
}

/// A note.
fn noted(note: &Overflow) -> String {
    format!("note at {}{}: {}", place(note.span), guess(note.is_guess), note.sentence())
}

/// A place in words.
fn place(span: Span) -> String {
    format!("line {}, column {}", span.line, span.column)
}

/// Words where the reading is a guess.
fn guess(is_guess: bool) -> &'static str {
    if is_guess {
        ", a guess"
    } else {
        ""
    }
}

/// What is kept together of a part.
fn groups(part: &Part) -> Vec<Group> {
    match part {
        Part::Block(block, number) => block_groups(block, *number),
        Part::Heredoc(heredoc) => vec![words(&[heredoc_name(heredoc)])],
        Part::Remark(remark) => vec![words(&remark_lines(remark))],
    }
}

/// A block: its name and its picture; where that is cut in strips each is by itself below its columns.
fn block_groups(block: &Block, number: usize) -> Vec<Group> {
    let rows = counted(block.rows.len(), "row");
    let label = shown(&block.label);
    let name =
        format!("block {}, line {}, label {}, {}{}", number, block.span.line, label, rows, guess(block.is_guess));
    let picture = Picture::new(block);
    let strips = picture.strips(CELLS * DOTS_WIDE);
    let strip_words = strips.iter().filter(|_| strips.len() > 1).map(|columns| vec![strip_name(columns)]);
    let mut told: Vec<Vec<String>> = strip_words.collect();
    told.resize(strips.len().max(1), Vec::new());
    told[0].insert(0, name);
    let patterns = strips.iter().map(|columns| picture.patterns(columns, DOTS_HIGH));
    let mut pictures: Vec<Vec<String>> =
        patterns.map(|lines| lines.iter().map(|line| braille(line)).collect()).collect();
    pictures.resize(told.len(), Vec::new());
    told.iter().zip(pictures).map(|(told, picture)| Group { picture, ..words(told) }).collect()
}

/// The characters of some patterns.
fn braille(patterns: &[u8]) -> String {
    patterns.iter().map(|pattern| ueb::letter(*pattern)).collect()
}

/// A heredoc's lines and label.
fn heredoc_name(heredoc: &Heredoc) -> String {
    let label = shown(&heredoc.label);
    let guess = guess(heredoc.is_guess);
    format!("heredoc, lines {} to {}, label {}, not shown{}", heredoc.span.line, heredoc.last, label, guess)
}

/// A remark's place and its lines.
fn remark_lines(remark: &Remark) -> Vec<String> {
    let name = format!("remark, {}{}", place(remark.span), guess(remark.is_guess));
    std::iter::once(name).chain(remark.lines().map(shown)).collect()
}

/// Texts in braille, each from a line of its own on.
fn words(texts: &[String]) -> Group {
    Group { words: texts.iter().flat_map(|text| ueb::lines(text, CELLS)).collect(), picture: Vec::new() }
}

impl Group {
    /// How many lines must have room on the page that it begins on: all if a page has room for them, else the words,
    /// with a line of a picture that no page has room for.
    fn needed(&self) -> usize {
        let (words, picture) = (self.words.len(), self.picture.len());
        match words + picture {
            all if all <= LINES => all,
            _ if picture <= LINES => words.min(LINES),
            _ => (words + 1).min(LINES),
        }
    }
}

/// Pages that are being filled; the last has room or is full.
struct Pages {
    pages: Vec<Vec<String>>,
}

impl Pages {
    /// Adds a group, below an empty line or on a fresh page. A picture that a page has room for is on one page.
    fn add(&mut self, group: &Group) {
        if self.used() > 0 {
            self.make_room(1 + group.needed());
        }
        if self.used() > 0 {
            self.push("");
        }
        group.words.iter().for_each(|line| self.push(line));
        if group.picture.len() <= LINES {
            self.make_room(group.picture.len());
        }
        group.picture.iter().for_each(|line| self.push(line));
    }

    /// How many lines the last page has.
    fn used(&self) -> usize {
        self.pages.last().map_or(0, Vec::len)
    }

    /// Begins a page where the last one has no room for so many lines.
    fn make_room(&mut self, lines: usize) {
        if self.used() + lines > LINES {
            self.pages.push(Vec::new());
        }
    }

    /// Adds a line; blanks at its end are not embossed.
    fn push(&mut self, line: &str) {
        self.make_room(1);
        if let Some(page) = self.pages.last_mut() {
            page.push(line.trim_end().to_string());
        }
    }

    /// All pages, with the bytes that end lines and pages.
    fn text(&self) -> String {
        let page = |lines: &Vec<String>| lines.iter().map(|line| format!("{}\r\n", line)).collect::<String>() + "\x0C";
        self.pages.iter().map(page).collect()
    }
}
