//! A sheet with its blocks in braille: Unicode's braille patterns, each with two cells of four rows as its eight dots.

use crate::reading::sheet::{Block, Sheet};
use crate::showing::picture::{strip_name, Picture, DOTS_WIDE};
use crate::showing::text::whole_with;

/// How many rows a pattern has.
const DOTS_HIGH: usize = 4;

/// The first of Unicode's braille patterns, the one without a dot.
const BLANK: u32 = 0x2800;

/// A block's picture, all columns side by side. A line ends with its last dot; one without a dot has a blank pattern,
/// so that it is not taken for the picture's end.
pub fn lines(block: &Block) -> Vec<String> {
    strips(block, None)
}

/// One sheet as a whole, as text shows it, with a picture in place of each block's rows; one that has no room in so
/// many columns is cut in strips, one below another.
pub fn whole(path: &str, sheet: &Sheet, columns: Option<usize>) -> String {
    whole_with(path, sheet, columns, &|block| strips(block, columns))
}

/// A block's picture in strips of so many columns; where there are several each has a line above it.
fn strips(block: &Block, columns: Option<usize>) -> Vec<String> {
    let picture = Picture::new(block);
    let strips = picture.strips(columns.map_or(usize::MAX, |columns| columns.saturating_mul(DOTS_WIDE)));
    let is_cut = strips.len() > 1;
    let strip = |columns| {
        let name = is_cut.then(|| strip_name(&columns));
        let patterns = picture.patterns(&columns, DOTS_HIGH);
        name.into_iter().chain(patterns.iter().map(|line| letters(line)).collect::<Vec<_>>())
    };
    strips.into_iter().flat_map(strip).collect()
}

/// The characters of a line.
fn letters(line: &[u8]) -> String {
    let patterns = if line.is_empty() { &[0] } else { line };
    patterns.iter().map(|pattern| letter(*pattern)).collect()
}

/// The character of a pattern.
fn letter(pattern: u8) -> char {
    char::from_u32(BLANK + u32::from(pattern)).unwrap_or(' ')
}

#[cfg(test)]
mod tests {
    use super::{lines, strips};
    use crate::showing::picture::tests::block;

    #[test]
    fn a_relief_dot_by_dot() {
        // Columns 1 and 2: rows 1 to 4 of the first are raised (dots 1, 2, 3, 7), of the second rows 1 and 4 (4, 8).
        // Column 3: row 2 (dot 2). Row 5 has the second line for itself: dots 1 and 4, then dot 1.
        assert_eq!(lines(&block(&["##", "# o", "#", "##", "ä€漢"])), ["\u{28CF}\u{2802}", "\u{2809}\u{2801}"]);
        // All eight dots, and a tab, which is none.
        assert_eq!(lines(&block(&["oo\t", "oo", "oo", "oo"])), ["\u{28FF}"]);
    }

    #[test]
    fn an_empty_line_of_a_picture_has_a_blank_pattern() {
        assert_eq!(lines(&block(&["", "", "", "", "   o"])), ["\u{2800}", "\u{2800}\u{2808}"]);
        assert_eq!(lines(&block(&[])), [""; 0]);
        assert_eq!(lines(&block(&["", ""])), [""; 0]);
    }

    #[test]
    fn a_wide_picture_is_cut_in_strips() {
        let row = "o".repeat(5);
        let rows = block(&[row.as_str()]);
        assert_eq!(strips(&rows, Some(3)), ["\u{2809}\u{2809}\u{2801}"]);
        let want = ["columns 1 to 4", "\u{2809}\u{2809}", "columns 5 to 5", "\u{2801}"];
        assert_eq!(strips(&rows, Some(2)), want);
    }
}
