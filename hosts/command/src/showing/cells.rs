//! The cells of a row, which are the dots of its picture: one for each character, whatever its bytes and columns. A
//! mark that stands over the character before it has that one's cell; a byte that is no character has one of its own.

use crate::showing::shown::{pieces, TAB};

/// A cell of a row.
#[derive(Clone, Debug, PartialEq, Eq)]
pub struct Cell {
    /// What is shown of it.
    pub text: String,
    /// How many columns that takes.
    pub width: usize,
    /// How many bytes of the row it stands for.
    pub taken: usize,
    /// Whether it is raised: its character is neither a space nor a tab, or a mark stands over it.
    pub is_raised: bool,
}

/// The cells of a row.
pub fn cells(row: &[u8]) -> Vec<Cell> {
    let mut cells: Vec<Cell> = Vec::with_capacity(row.len());
    for piece in pieces(row) {
        match cells.last_mut() {
            Some(cell) if piece.width == 0 => {
                cell.text.push_str(&piece.text);
                cell.taken += piece.taken;
                cell.is_raised = true;
            }
            _ => {
                let is_raised = piece.text != " " && piece.text != TAB;
                cells.push(Cell { text: piece.text, width: piece.width, taken: piece.taken, is_raised });
            }
        }
    }
    cells
}

/// The cell that has the byte at a place of a row: its number, from 1, and how many bytes stand before it.
pub fn cell_at(row: &[u8], at: usize) -> Option<(usize, usize)> {
    let mut start = 0;
    for (cell, number) in cells(row).iter().zip(1..) {
        if at < start + cell.taken {
            return Some((number, start));
        }
        start += cell.taken;
    }
    None
}

#[cfg(test)]
mod tests {
    use super::{cell_at, cells};

    /// A row's cells: what is shown, with `!` behind it where it is raised.
    fn told(row: &[u8]) -> Vec<String> {
        cells(row).into_iter().map(|cell| cell.text + if cell.is_raised { "!" } else { "" }).collect()
    }

    #[test]
    fn a_character_is_a_cell() {
        assert_eq!(told(b"o .\t#"), ["o!", " ", ".!", "→", "#!"]);
        assert_eq!(told("ä€漢".as_bytes()), ["ä!", "€!", "漢!"]);
        assert_eq!(told("\u{A0}→".as_bytes()), ["\u{A0}!", "\\u{2192}!"]);
        assert_eq!(told(b""), [""; 0]);
    }

    #[test]
    fn a_mark_joins_the_cell_before_it() {
        assert_eq!(told("e\u{301}\u{327}x".as_bytes()), ["e\u{301}\u{327}!", "x!"]);
        assert_eq!(told(" \u{301} ".as_bytes()), [" \u{301}!", " "]);
        assert_eq!(told("\u{301}a".as_bytes()), ["\u{301}!", "a!"]);
    }

    #[test]
    fn every_byte_has_a_cell() {
        let of = |row: &str| (0..=row.len()).map(|at| cell_at(row.as_bytes(), at)).collect::<Vec<_>>();
        assert_eq!(of("o€."), [Some((1, 0)), Some((2, 1)), Some((2, 1)), Some((2, 1)), Some((3, 4)), None]);
        assert_eq!(of("e\u{301}x"), [Some((1, 0)), Some((1, 0)), Some((1, 0)), Some((2, 3)), None]);
        assert_eq!(cell_at(b"\xE2\x82", 1), Some((2, 1)));
        assert_eq!(of(""), [None]);
    }

    #[test]
    fn a_byte_that_is_no_character_is_a_cell() {
        assert_eq!(told(b"\xE2\x82o\x00"), ["\\xE2!", "\\x82!", "o!", "\\x00!"]);
    }
}
