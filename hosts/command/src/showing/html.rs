//! A page of sheets: self-contained, with each block's rows as raised dots and as text, and the remarks between them.

use crate::reading::fault::{Fault, Mark};
use crate::reading::octal::Overflow;
use crate::reading::remark::Remark;
use crate::reading::sheet::{Block, Part, Sheet};
use crate::reading::warning::Warning;
use crate::showing::figure::figure;
use crate::showing::shown::{shown, split, Piece};
use crate::showing::text::{block_form, block_name, guess, heredoc_name, remark_name, verdict, what_was_read, Totals};

const STYLE: &str = include_str!("page.css");

/// A sheet on the page: its entry in the list at the top, and its section.
pub struct Section {
    /// The entry.
    pub entry: String,
    /// The section.
    pub body: String,
}

/// The page of all sheets.
pub fn page(totals: &Totals, sections: &[Section]) -> String {
    let entries: String = sections.iter().map(|section| section.entry.as_str()).collect();
    let bodies: String = sections.iter().map(|section| section.body.as_str()).collect();
    format!(
        "<!DOCTYPE html>\n<html lang=\"en\">\n<head>\n<meta charset=\"utf-8\"/>\n\
         <meta name=\"viewport\" content=\"width=device-width, initial-scale=1\"/>\n\
         <title>Sheets: {summary}</title>\n<style>\n{style}</style>\n</head>\n<body>\n<main>\n<h1>Sheets</h1>\n\
         <p>{summary}</p>\n<nav aria-label=\"Sheets\">\n<ul>\n{entries}</ul>\n</nav>\n\
         {bodies}</main>\n</body>\n</html>\n",
        summary = escaped(&totals.summary()),
        style = STYLE,
        entries = entries,
        bodies = bodies,
    )
}

/// A sheet, the number-th of the page.
pub fn section(path: &str, number: usize, sheet: &Sheet) -> Section {
    let path = escaped(path);
    let entry = format!(
        "<li><a href=\"#sheet-{}\">{}</a>: {}{}</li>\n",
        number,
        path,
        escaped(&verdict(sheet)),
        links(number, sheet)
    );
    let heading = format!("<h2 id=\"sheet-{}\">{}</h2>\n", number, path);
    let read = format!("<p>{}</p>\n", escaped(&what_was_read(sheet)));
    let part_text = |part: Part| match part {
        Part::Block(block, at) => block_text(&path, block, at, &format!("{}-{}", number, at)),
        Part::Heredoc(heredoc) => format!("<p class=\"heredoc\">{}</p>\n", escaped(&heredoc_name(heredoc))),
        Part::Remark(remark) => remark_text(remark),
    };
    let parts: String = sheet.parts().into_iter().map(part_text).collect();
    let notes: String =
        sheet.notes.iter().zip(1..).map(|(note, at)| note_text(note, &format!("{}-{}", number, at))).collect();
    let content = [heading, read, troubles(number, sheet), notes, parts].concat();
    let body = format!("<section aria-labelledby=\"sheet-{}\">\n{}</section>\n", number, content);
    Section { entry, body }
}

/// Links to what is told of a sheet's refusals and warnings, each by the line to look at first.
fn links(number: usize, sheet: &Sheet) -> String {
    let faults = sheet.faults.iter().map(|fault| fault.mark.as_ref().map(|_| fault.place.line));
    let lines = faults.chain(sheet.warnings.iter().map(|warning| warning.mark.as_ref().map(|mark| mark.line)));
    let link = |(line, at): (Option<u32>, usize)| {
        let name = line.map_or("the script".to_string(), |line| format!("line {}", line));
        format!("<a href=\"#trouble-{}-{}\">{}</a>", number, at, name)
    };
    let links: Vec<String> = lines.zip(1..).map(link).collect();
    if links.is_empty() {
        return String::new();
    }
    format!(" (see {})", links.join(", "))
}

/// A sheet's refusals and warnings.
fn troubles(number: usize, sheet: &Sheet) -> String {
    let ids = (1..).map(|at| format!("{}-{}", number, at));
    let faults = sheet.faults.iter().zip(ids.clone()).map(|(fault, id)| fault_text(fault, &id));
    let warnings = sheet.warnings.iter().zip(ids.skip(sheet.faults.len()));
    faults.chain(warnings.map(|(warning, id)| warning_text(warning, &id))).collect()
}

/// A text in which nothing is taken for a tag.
pub fn escaped(text: &str) -> String {
    let mut out = String::with_capacity(text.len());
    for letter in text.chars() {
        match letter {
            '&' => out.push_str("&amp;"),
            '<' => out.push_str("&lt;"),
            '>' => out.push_str("&gt;"),
            '"' => out.push_str("&quot;"),
            '\'' => out.push_str("&#39;"),
            letter => out.push(letter),
        }
    }
    out
}

/// A block of a sheet, whose path comes escaped: its heading, its picture and rows.
fn block_text(path: &str, block: &Block, number: usize, id: &str) -> String {
    let name = escaped(&block_name(block, number));
    let form = escaped(&block_form(block));
    let figure = figure(block, &format!("{}, block {}", path, number), id);
    format!("<h3>{}</h3>\n<p class=\"form\">{}</p>\n{}", name, form, figure)
}

/// A remark, which is read as a note beside the blocks: its place and its lines.
fn remark_text(remark: &Remark) -> String {
    let lines: Vec<String> = remark.lines().map(|line| escaped(&shown(line))).collect();
    format!(
        "<aside role=\"note\" class=\"remark\">\n<p>{}</p>\n<pre class=\"line\"><code>{}</code></pre>\n</aside>\n",
        escaped(&remark_name(remark)),
        lines.join("\n")
    )
}

/// A refusal: its line with the place marked, what it is and what to do.
fn fault_text(fault: &Fault, id: &str) -> String {
    let refusal = fault.refusal;
    let place = place_text(&refusal.span.to_string(), fault.mark.as_ref(), id);
    let heading = format!("Refused {} at {}: {}{}", refusal.number, place, refusal.name(), guess(fault.is_guess));
    let mark: String = fault.mark.iter().map(|mark| marked_line(mark, &format!("line-{}", id))).collect();
    let sentences = [Some(fault.sentence()), fault.detail.clone()];
    let told: String = sentences.iter().flatten().map(|text| format!("<p>{}</p>\n", escaped(text))).collect();
    let others = [("opening", &fault.opening), ("suspect", &fault.suspect)];
    let line = |(name, mark): (&str, &Option<Mark>)| {
        mark.as_ref().map_or_else(String::new, |mark| marked_line(mark, &format!("{}-{}", name, id)))
    };
    let others: String = others.into_iter().map(line).collect();
    format!("<div class=\"refused\" id=\"trouble-{}\">\n<h3>{}</h3>\n{}{}{}</div>\n", id, heading, mark, told, others)
}

/// A warning: its line with the place marked, what is there and what to do.
fn warning_text(warning: &Warning, id: &str) -> String {
    let place = place_text(&warning.span.to_string(), warning.mark.as_ref(), id);
    let mark: String = warning.mark.iter().map(|mark| marked_line(mark, &format!("line-{}", id))).collect();
    let told = escaped(&warning.sentence());
    format!(
        "<div class=\"warned\" id=\"trouble-{}\">\n<h3>Warning at {}</h3>\n{}<p>{}</p>\n</div>\n",
        id, place, mark, told
    )
}

/// A note on an octal escape over 377: its line with the place marked, what is there and what to do.
fn note_text(note: &Overflow, id: &str) -> String {
    let line = marked_line(&note.mark, &format!("note-{}", id));
    let told = escaped(&format!("Note at {}{}: {}", note.span, guess(note.is_guess), note.sentence()));
    format!("<aside role=\"note\" class=\"remark\">\n{}<p>{}</p>\n</aside>\n", line, told)
}

/// A place, which leads to its line where that is shown.
fn place_text(place: &str, mark: Option<&Mark>, id: &str) -> String {
    mark.map_or(place.to_string(), |_| format!("<a href=\"#line-{}\">{}</a>", id, place))
}

/// A line of the script below its number and the place, with the character there marked, or the line's end.
fn marked_line(mark: &Mark, id: &str) -> String {
    let (front, rest) = split(&mark.text, mark.at);
    let text = |pieces: &[Piece]| pieces.iter().map(|piece| escaped(&piece.text)).collect::<String>();
    let (at, behind) = rest.split_at(rest.len().min(1));
    let place = if at.is_empty() { "at its end".to_string() } else { format!("column {}", mark.at + 1) };
    let marked = if at.is_empty() { " ".to_string() } else { text(at) };
    format!(
        "<p>Line {}, {}:</p>\n<pre class=\"line\" id=\"{}\"><code>{}<mark>{}</mark>{}</code></pre>\n",
        mark.line,
        place,
        id,
        text(&front),
        marked,
        text(behind)
    )
}
