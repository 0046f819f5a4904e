//! A block on a page: its raised dots, and its rows as text in the same cells. On paper, where nothing scrolls, a wide
//! block is cut in strips and a large picture in tiles; both are in the page, and its style shows them in print alone.

use std::ops::Range;

use crate::reading::fault::counted;
use crate::reading::sheet::Block;
use crate::showing::cells::{cells, Cell};
use crate::showing::html::escaped;
use crate::showing::picture::{strip_name, strips};

/// The most columns that have room on paper, with the rows' numbers.
const PAPER_COLUMNS: usize = 60;

/// The most rows of a picture that have room on a sheet of paper.
const PAPER_ROWS: usize = 80;

/// The most parts that rows are cut in for paper; a block that would have more is wrapped there, so that no page grows
/// without bounds.
const MOST_PARTS: usize = 20_000;

/// A block's cells, row by row, with the names that its elements bear.
struct Figure<'a> {
    rows: Vec<Vec<Cell>>,
    width: usize,
    name: &'a str,
    id: &'a str,
}

/// A block's picture and rows; its name comes escaped, and the id tells it from others of the page. An empty block has
/// none.
pub fn figure(block: &Block, name: &str, id: &str) -> String {
    let rows: Vec<Vec<Cell>> = block.rows.iter().map(|row| cells(row)).collect();
    let width = rows.iter().map(Vec::len).max().unwrap_or(0);
    if width == 0 {
        return String::new();
    }
    let figure = Figure { rows, width, name, id };
    format!(
        "<div class=\"block\" role=\"region\" tabindex=\"0\" \
         aria-label=\"Picture and rows of {}\" style=\"--digits:{}\">\n\
         {}{}{}</div>\n",
        name,
        figure.digits(),
        figure.picture(),
        figure.tiles(),
        figure.text()
    )
}

impl Figure<'_> {
    /// How many digits the last row's number has.
    fn digits(&self) -> usize {
        self.rows.len().to_string().len()
    }

    /// The columns of the strips that have room on paper.
    fn strips(&self) -> Vec<Range<usize>> {
        strips(self.width, PAPER_COLUMNS)
    }

    /// Whether the rows are cut in strips for paper.
    fn is_cut(&self) -> bool {
        self.width > PAPER_COLUMNS && self.strips().len() * self.rows.len() <= MOST_PARTS
    }

    /// The rows as raised dots, each with its light side over its dark one.
    fn picture(&self) -> String {
        let (width, height) = (self.width, self.rows.len());
        let (dots, count) = self.dots();
        let size = format!("{}, {} wide", counted(height, "row"), counted(width, "cell"));
        let class = if self.is_tiled() { "whole" } else { "picture" };
        format!(
            "<svg class=\"{class}\" role=\"img\" \
             aria-label=\"Raised dots of {name}: {size}, {count}; the rows follow as text\" \
             viewBox=\"0 0 {width} {height}\" style=\"width:{width}em;height:{height}em\">\n\
             <g class=\"low\"><path id=\"dots-{id}\" d=\"{dots}\"/></g>\n{top}</svg>\n",
            class = class,
            name = self.name,
            id = self.id,
            width = width,
            height = height,
            size = size,
            count = counted(count, "dot"),
            dots = dots,
            top = self.light_sides()
        )
    }

    /// The dots' light sides.
    fn light_sides(&self) -> String {
        format!("<use href=\"#dots-{}\" class=\"top\" transform=\"translate(-.08 -.08)\"/>\n", self.id)
    }

    /// Whether the picture has no room on a sheet of paper.
    fn is_tiled(&self) -> bool {
        self.width > PAPER_COLUMNS || self.rows.len() > PAPER_ROWS
    }

    /// The parts of a picture that has no room on a sheet of paper, but for those without a dot.
    fn tiles(&self) -> String {
        let tops = (0..self.rows.len()).step_by(PAPER_ROWS).filter(|_| self.is_tiled());
        let tiles = tops.flat_map(|top| self.strips().into_iter().map(move |columns| (columns, top)));
        tiles
            .filter(|(columns, top)| self.has_dots(columns, *top))
            .map(|(columns, top)| self.tile(&columns, top))
            .collect()
    }

    /// Whether a tile has a dot.
    fn has_dots(&self, columns: &Range<usize>, top: usize) -> bool {
        let mut rows = self.rows.iter().skip(top).take(PAPER_ROWS);
        rows.any(|row| part(row, columns).iter().any(|cell| cell.is_raised))
    }

    /// The part of a picture that has some columns, from a row on, below their numbers.
    fn tile(&self, columns: &Range<usize>, top: usize) -> String {
        let (width, height) = (columns.len(), PAPER_ROWS.min(self.rows.len() - top));
        format!(
            "<div class=\"tile\" data-name=\"{columns}, rows {first} to {last}\">\n\
             <svg role=\"img\" aria-label=\"{columns}, rows {first} to {last}\" \
             viewBox=\"{left} {top} {width} {height}\" \
             style=\"width:{width}em;height:{height}em\">\n\
             <g class=\"low\"><use href=\"#dots-{id}\"/></g>\n{light_sides}</svg>\n</div>\n",
            columns = strip_name(columns),
            first = top + 1,
            last = top + height,
            left = columns.start,
            top = top,
            width = width,
            height = height,
            id = self.id,
            light_sides = self.light_sides()
        )
    }

    /// The path of all dots, each a line of no length with a round end, and how many they are.
    fn dots(&self) -> (String, usize) {
        let raised = |(row, down): (&Vec<Cell>, usize)| {
            let raised = row.iter().zip(0usize..).filter(|(cell, _right)| cell.is_raised);
            raised.map(|(_cell, right)| format!("M{}.5 {}.5h0", right, down)).collect::<Vec<_>>()
        };
        let dots: Vec<String> = self.rows.iter().zip(0usize..).flat_map(raised).collect();
        (dots.concat(), dots.len())
    }

    /// The rows as text, each behind its number, which is not copied.
    fn text(&self) -> String {
        let strips = if self.is_cut() { self.strips() } else { Vec::new() };
        let class = if strips.is_empty() { "rows" } else { "rows cut" };
        let rows: String = self.rows.iter().zip(1..).map(|(row, number)| self.row(row, number, &strips)).collect();
        format!("<pre class=\"{}\"><code>{}</code></pre>\n", class, rows)
    }

    /// A row; one of a wide block in strips, which stand side by side but in print.
    fn row(&self, row: &[Cell], number: usize, strips: &[Range<usize>]) -> String {
        let number_text = format!("{:>1$} |", number, self.digits());
        let text = match strips {
            [] => cells_text(row),
            strips => strips.iter().map(|columns| strip(row, columns, number, &number_text)).collect(),
        };
        format!("<span class=\"row\"><span class=\"number\">{}</span>{}\n</span>", number_text, text)
    }
}

/// A row's cells of some columns; the first row's bear the strip's name.
fn strip(row: &[Cell], columns: &Range<usize>, number: usize, number_text: &str) -> String {
    let name = if number == 1 { format!(" data-name=\"{}\"", strip_name(columns)) } else { String::new() };
    format!(
        "<span class=\"strip\" style=\"order:{}\" data-number=\"{}\"{}>{}</span>",
        columns.start / PAPER_COLUMNS,
        number_text,
        name,
        cells_text(part(row, columns))
    )
}

/// A row's cells of some columns, which it may not reach.
fn part<'a>(row: &'a [Cell], columns: &Range<usize>) -> &'a [Cell] {
    row.get(columns.start..columns.end.min(row.len())).unwrap_or_default()
}

/// Cells as text: one that is not a plain character is kept to its place.
fn cells_text(cells: &[Cell]) -> String {
    let text = |cell: &Cell| match (cell.width, cell.text.is_ascii()) {
        (1, true) => escaped(&cell.text),
        (_, true) => format!("<span class=\"sign\">{}</span>", escaped(&cell.text)),
        (_, false) => format!("<span class=\"cell\">{}</span>", escaped(&cell.text)),
    };
    cells.iter().map(text).collect()
}
