//! A block's picture: a dot for each raised cell of its rows, gathered into braille patterns and cut in strips.

use std::ops::Range;

use crate::reading::sheet::Block;
use crate::showing::cells::cells;

/// The bits of a braille pattern's dots, two a row: dots 1 and 4, 2 and 5, 3 and 6, 7 and 8.
const DOTS: [[u8; DOTS_WIDE]; 4] = [[0x01, 0x08], [0x02, 0x10], [0x04, 0x20], [0x40, 0x80]];

/// How many dots stand side by side in a braille pattern.
pub const DOTS_WIDE: usize = 2;

/// A block's dots.
pub struct Picture {
    rows: Vec<Vec<bool>>,
    width: usize,
}

impl Picture {
    /// The picture of a block.
    pub fn new(block: &Block) -> Picture {
        let raised = |row: &Vec<u8>| cells(row).iter().map(|cell| cell.is_raised).collect();
        let rows: Vec<Vec<bool>> = block.rows.iter().map(raised).collect();
        let width = rows.iter().map(Vec::len).max().unwrap_or(0);
        Picture { rows, width }
    }

    /// The columns of strips that are at most so wide.
    pub fn strips(&self, most: usize) -> Vec<Range<usize>> {
        strips(self.width, most)
    }

    /// The braille patterns of some columns, line by line up to the last that has a dot, each `high` dots high: bit 0
    /// is dot 1, bit 7 is dot 8.
    pub fn patterns(&self, columns: &Range<usize>, high: usize) -> Vec<Vec<u8>> {
        self.rows.chunks(high).map(|rows| line(rows, columns)).collect()
    }
}

/// The columns of strips that are at most so wide; none where there is no column.
pub fn strips(width: usize, most: usize) -> Vec<Range<usize>> {
    let most = most.max(DOTS_WIDE);
    (0..width).step_by(most).map(|start| start..start.saturating_add(most).min(width)).collect()
}

/// The patterns of some rows' columns, up to the last that has a dot.
fn line(rows: &[Vec<bool>], columns: &Range<usize>) -> Vec<u8> {
    let end = rows.iter().map(Vec::len).max().unwrap_or(0).min(columns.end);
    let mut line: Vec<u8> = (columns.start..end).step_by(DOTS_WIDE).map(|left| pattern(rows, left)).collect();
    line.truncate(line.iter().rposition(|pattern| *pattern != 0).map_or(0, |last| last + 1));
    line
}

/// The pattern of some rows whose first dot is in a column.
fn pattern(rows: &[Vec<bool>], left: usize) -> u8 {
    let bits = |(bits, row): (&[u8; DOTS_WIDE], &Vec<bool>)| {
        let raised = bits.iter().zip(left..).filter(|(_bit, column)| row.get(*column) == Some(&true));
        raised.map(|(bit, _column)| bit).sum::<u8>()
    };
    DOTS.iter().zip(rows).map(bits).sum()
}

/// What stands above a strip, in words: its columns, from 1.
pub fn strip_name(columns: &Range<usize>) -> String {
    format!("columns {} to {}", columns.start + 1, columns.end)
}

#[cfg(test)]
pub(crate) mod tests {
    use super::{strip_name, Picture};
    use crate::reading::sheet::{Block, Indentation};
    use puretakoi::Span;

    /// A block of some rows.
    pub fn block(rows: &[&str]) -> Block {
        Block {
            span: Span { line: 2, column: 6, position: 11 },
            label: b"RELIEF".to_vec(),
            indentation: Indentation::None,
            rows: rows.iter().map(|row| row.as_bytes().to_vec()).collect(),
            body: 0..0,
            is_guess: false,
        }
    }

    #[test]
    fn each_dot_has_its_bit() {
        let rows = ["o   ", "  o ", " o", "   o", "o"];
        // Left: dots 1 (row 1) and 6 (row 3, second column). Right: dots 2 (row 2) and 8 (row 4).
        let first_four = vec![vec![0b0010_0001, 0b1000_0010], vec![0b0000_0001]];
        assert_eq!(Picture::new(&block(&rows)).patterns(&(0..4), 4), first_four);
        // Three high: row 4 is the first of the second line, its dot is 4 of the right pattern; row 5 has dot 2 of the
        // left one.
        let by_three = vec![vec![0b0010_0001, 0b0000_0010], vec![0b0000_0010, 0b0000_1000]];
        assert_eq!(Picture::new(&block(&rows)).patterns(&(0..4), 3), by_three);
    }

    #[test]
    fn a_line_ends_with_its_last_dot() {
        let picture = Picture::new(&block(&["o o   \t", "", "", "", "", "", "", "", "   o"]));
        assert_eq!(picture.patterns(&(0..7), 4), vec![vec![0b0000_0001, 0b0000_0001], vec![], vec![0, 0b0000_1000]]);
        assert_eq!(picture.patterns(&(4..7), 4), vec![vec![], vec![], vec![]] as Vec<Vec<u8>>);
    }

    #[test]
    fn strips_share_the_columns_out() {
        let strips = |width: usize, most| {
            let ranges = Picture::new(&block(&["o".repeat(width).as_str()])).strips(most);
            ranges.iter().map(|strip| (strip.start, strip.end)).collect::<Vec<_>>()
        };
        assert_eq!(strips(0, 80), []);
        assert_eq!(strips(80, 80), [(0, 80)]);
        assert_eq!(strips(81, 80), [(0, 80), (80, 81)]);
        assert_eq!(strips(5, usize::MAX), [(0, 5)]);
        assert_eq!(strips(5, 0), [(0, 2), (2, 4), (4, 5)]);
        assert_eq!(strip_name(&(80..95)), "columns 81 to 95");
    }
}
