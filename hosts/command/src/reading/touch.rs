//! Where in a block a byte lies, by the rows and cells in which the block is shown.

use crate::reading::php::next_line;
use crate::reading::sheet::{Block, Sheet};
use crate::showing::cells::cell_at;

/// A block that has a byte.
#[derive(Debug, PartialEq, Eq)]
pub struct Touch<'a> {
    /// The block.
    pub block: &'a Block,
    /// The block's number, from 1.
    pub number: usize,
    /// What of it the byte is.
    pub part: Part,
}

/// What of a block a byte is. Rows and cells count from 1.
#[derive(Clone, Copy, Debug, PartialEq, Eq)]
pub enum Part {
    /// Its opening, with the line break.
    Opening,
    /// The indentation of a row, which comes off.
    Indentation(usize),
    /// A cell.
    Cell(CellPlace),
    /// The line break after a row.
    Break(usize),
    /// The indentation of the closing line.
    ClosingIndentation,
    /// The closing label.
    Label,
}

/// Which cell it is.
#[derive(Clone, Copy, Debug, PartialEq, Eq)]
pub struct CellPlace {
    /// The row.
    pub row: usize,
    /// The cell of the row.
    pub cell: usize,
    /// How many bytes of the row stand before the cell.
    pub start: usize,
}

impl Part {
    /// Its name, for programs.
    pub fn name(self) -> &'static str {
        match self {
            Part::Opening => "opening",
            Part::Indentation(_) => "indentation",
            Part::Cell(_) => "cell",
            Part::Break(_) => "break",
            Part::ClosingIndentation => "closing-indentation",
            Part::Label => "label",
        }
    }

    /// The row that it is in or at.
    pub fn row(self) -> Option<usize> {
        match self {
            Part::Indentation(row) | Part::Break(row) => Some(row),
            Part::Cell(place) => Some(place.row),
            Part::Opening | Part::ClosingIndentation | Part::Label => None,
        }
    }
}

/// The block of a sheet that has a byte of its script, if one has.
pub fn touch<'a>(sheet: &'a Sheet, script: &[u8], byte: usize) -> Option<Touch<'a>> {
    let has_it = |block: &Block| block.span.position as usize <= byte && byte < block.body.end;
    let (block, number) = sheet.blocks.iter().zip(1..).find(|(block, _number)| has_it(block))?;
    Some(Touch { block, number, part: part(block, script, byte)? })
}

/// What of a block a byte is that it has.
fn part(block: &Block, script: &[u8], byte: usize) -> Option<Part> {
    let label = block.body.end.checked_sub(block.label.len())?;
    let closing_line = label.checked_sub(block.indentation.width())?;
    match byte {
        byte if byte < block.body.start => Some(Part::Opening),
        byte if byte < closing_line => part_of_row(block, script, byte),
        byte if byte < label => Some(Part::ClosingIndentation),
        _ => Some(Part::Label),
    }
}

/// What of a row a byte is. What its line has more than the row is the indentation that comes off, and the break.
fn part_of_row(block: &Block, script: &[u8], byte: usize) -> Option<Part> {
    let front = script.get(block.body.start..byte)?;
    let row = front.iter().filter(|byte| **byte == b'\n').count() + 1;
    let start = front.iter().rposition(|byte| *byte == b'\n').map_or(block.body.start, |at| block.body.start + at + 1);
    let line = script.get(start..next_line(script, byte))?;
    let line = line.strip_suffix(b"\n").unwrap_or(line);
    let line = line.strip_suffix(b"\r").unwrap_or(line);
    let cells = block.rows.get(row - 1)?;
    let indentation = line.len().checked_sub(cells.len())?;
    Some(match (byte - start).checked_sub(indentation) {
        None => Part::Indentation(row),
        Some(at) => {
            cell_at(cells, at).map_or(Part::Break(row), |(cell, start)| Part::Cell(CellPlace { row, cell, start }))
        }
    })
}
