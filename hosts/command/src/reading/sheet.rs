//! A script as a sheet: its nowdoc blocks by the sheet reading, its remarks, and how the reading ended.

use std::ops::Range;

use puretakoi::{kinds, Frame, Octal, Span};

use crate::reading::fault::Fault;
use crate::reading::gather::gather;
use crate::reading::heredoc::Heredoc;
use crate::reading::octal::Overflow;
use crate::reading::reader::Step;
use crate::reading::remark::Remark;
use crate::reading::warning::Warning;
use crate::showing::cells::cells;

/// What a script was read as.
#[derive(Debug, Default)]
pub struct Sheet {
    /// Its nowdoc blocks that were read.
    pub blocks: Vec<Block>,
    /// Its heredoc blocks that were read.
    pub heredocs: Vec<Heredoc>,
    /// Its comments that were read.
    pub remarks: Vec<Remark>,
    /// Its notes: the octal escapes over 377 that were read as PHP reads them, the first hundred.
    pub notes: Vec<Overflow>,
    /// Its warnings, in the script's order.
    pub warnings: Vec<Warning>,
    /// Its refusals: the first is the reading's, those behind it are met where the reading is a guess.
    pub faults: Vec<Fault>,
    /// How many bytes were read.
    pub end: u32,
    /// Where the reading stopped, if a refusal leaves no way on or too much is to be told.
    pub stopped: Option<Span>,
}

/// What a sheet comes to.
#[derive(Clone, Copy, Debug, PartialEq, Eq, Hash, PartialOrd, Ord)]
pub enum Verdict {
    /// Read to its end without a warning.
    Ok,
    /// Read to its end with a warning.
    Warned,
    /// Refused.
    Refused,
}

/// What is shown of a sheet one below another.
#[derive(Debug)]
pub enum Part<'a> {
    /// A block and its number, from 1.
    Block(&'a Block, usize),
    /// A heredoc.
    Heredoc(&'a Heredoc),
    /// A remark.
    Remark(&'a Remark),
}

/// A nowdoc block.
#[derive(Debug, PartialEq, Eq)]
pub struct Block {
    /// Where its `<<<` stands.
    pub span: Span,
    /// Its label.
    pub label: Vec<u8>,
    /// The indentation that came off each row.
    pub indentation: Indentation,
    /// Its rows without their breaks.
    pub rows: Vec<Vec<u8>>,
    /// The bytes of the script from its first row, or its closing line, up to the end of its closing label.
    pub body: Range<usize>,
    /// Whether it was read where the reading is a guess.
    pub is_guess: bool,
}

/// A closing line's indentation.
#[derive(Clone, Copy, Debug, PartialEq, Eq)]
pub enum Indentation {
    /// None.
    None,
    /// So many spaces.
    Spaces(u32),
    /// So many tabs.
    Tabs(u32),
}

impl Block {
    /// How many cells the row with the most has.
    pub fn widest(&self) -> usize {
        self.rows.iter().map(|row| cells(row).len()).max().unwrap_or(0)
    }
}

impl Indentation {
    /// How many bytes it has.
    pub fn width(self) -> usize {
        match self {
            Indentation::None => 0,
            Indentation::Spaces(amount) | Indentation::Tabs(amount) => amount as usize,
        }
    }
}

impl Part<'_> {
    /// How many bytes of the script stand before it.
    fn position(&self) -> u32 {
        match self {
            Part::Block(block, _number) => block.span.position,
            Part::Heredoc(heredoc) => heredoc.span.position,
            Part::Remark(remark) => remark.span.position,
        }
    }
}

impl Sheet {
    /// Reads a script to its end, behind refusals where that is safe; an octal escape over 377 as PHP reads it.
    pub fn read(script: &[u8]) -> Sheet {
        Sheet::read_by(script, Octal::Manual)
    }

    /// Reads a script to its end, behind refusals where that is safe, by these octals.
    pub fn read_by(script: &[u8], octals: Octal) -> Sheet {
        gather(script, octals)
    }

    /// What it comes to.
    pub fn verdict(&self) -> Verdict {
        match (self.faults.is_empty(), self.warnings.is_empty()) {
            (false, _) => Verdict::Refused,
            (true, false) => Verdict::Warned,
            (true, true) => Verdict::Ok,
        }
    }

    /// Its blocks, heredocs and remarks, in the script's order.
    pub fn parts(&self) -> Vec<Part<'_>> {
        let blocks = self.blocks.iter().zip(1..).map(|(block, number)| Part::Block(block, number));
        let others = self.heredocs.iter().map(Part::Heredoc).chain(self.remarks.iter().map(Part::Remark));
        let mut parts: Vec<Part> = blocks.chain(others).collect();
        parts.sort_by_key(Part::position);
        parts
    }

    /// How many rows its blocks have.
    pub fn rows(&self) -> usize {
        self.blocks.iter().map(|block| block.rows.len()).sum()
    }
}

/// The block that a step read, if it was in one.
pub(super) fn block(script: &[u8], step: &Step) -> Option<Block> {
    let label = match step.before.top()? {
        Frame::Nowdoc(label) => label.bytes(script).unwrap_or_default().to_vec(),
        _ => return None,
    };
    let text = step.records.iter().find(|record| record.kind == kinds::STRING_PART);
    let text = text.and_then(|record| record.value(&step.pool)).unwrap_or_default();
    let closer = step.records.last().map(|record| (record.kind, record.detail));
    let indentation = match closer {
        Some((kinds::END_DOC_STRING_SPACE, amount)) => Indentation::Spaces(amount),
        Some((kinds::END_DOC_STRING_TAB, amount)) => Indentation::Tabs(amount),
        _ => Indentation::None,
    };
    let rows = rows(text, step.after.line().saturating_sub(step.before.line()));
    let body = step.before.position() as usize..step.after.position() as usize;
    Some(Block { span: step.opening, label, indentation, rows, body, is_guess: false })
}

/// The rows of a block's text. A text of no bytes is no row or an empty one: the lines tell.
fn rows(text: &[u8], lines: u32) -> Vec<Vec<u8>> {
    if lines == 0 {
        return Vec::new();
    }
    let mut rows: Vec<Vec<u8>> = text.split(|byte| *byte == b'\n').map(<[u8]>::to_vec).collect();
    if let Some((_last, broken)) = rows.split_last_mut() {
        broken.iter_mut().filter(|row| row.ends_with(b"\r")).for_each(|row| row.truncate(row.len() - 1));
    }
    rows
}
