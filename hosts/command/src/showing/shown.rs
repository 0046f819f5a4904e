//! How bytes are shown: tabs and bytes that no one sees by signs, the rest as it is; cut to a width, or with a place
//! to mark. What the script has of the signs themselves is shown by a sign too, so that each sign says one thing.

use std::iter;

use crate::showing::letters::{columns_of, is_hidden};

/// What stands for a tab.
pub const TAB: &str = "→";

/// What stands where a row goes on.
pub const CUT: &str = "…";

/// A character, or a byte that is none, as it is shown.
#[derive(Clone, Debug, PartialEq, Eq)]
pub struct Piece {
    /// What is shown.
    pub text: String,
    /// How many columns that takes.
    pub width: usize,
    /// How many bytes it stands for.
    pub taken: usize,
}

/// A line as it is shown, and how many columns stand before its mark.
#[derive(Clone, Debug, PartialEq, Eq)]
pub struct Marked {
    /// The line.
    pub text: String,
    /// Columns before the mark.
    pub before: usize,
}

/// All bytes, piece by piece.
pub fn pieces(mut bytes: &[u8]) -> impl Iterator<Item = Piece> + '_ {
    iter::from_fn(move || {
        let piece = first_piece(bytes)?;
        bytes = bytes.get(piece.taken..).unwrap_or_default();
        Some(piece)
    })
}

/// The pieces of a line before the one that has the byte at `at`, and those from that one on.
pub fn split(line: &[u8], at: usize) -> (Vec<Piece>, Vec<Piece>) {
    let mut end = 0;
    pieces(line).partition(|piece| {
        end += piece.taken;
        end <= at
    })
}

/// All bytes as they are shown.
pub fn shown(bytes: &[u8]) -> String {
    pieces(bytes).map(|piece| piece.text).collect()
}

/// A row as it is shown in so many columns; one that needs more ends with a sign.
pub fn cut(bytes: &[u8], columns: Option<usize>) -> String {
    cut_pieces(&pieces(bytes).collect::<Vec<_>>(), columns.unwrap_or(usize::MAX))
}

/// A line as it is shown in so many columns, with the byte at `at` among them.
pub fn marked(line: &[u8], at: usize, columns: Option<usize>) -> Marked {
    let columns = columns.unwrap_or(usize::MAX);
    let (front, rest) = split(line, at);
    let before = width(&front);
    if before.saturating_add(width(&rest).max(1)) <= columns || before + 1 < columns {
        return Marked { text: cut_pieces(&[front, rest].concat(), columns), before };
    }
    let mut kept = before;
    let hidden = front.iter().take_while(|piece| past_half(&mut kept, piece, columns)).count();
    let text = cut_pieces(&[&front[hidden..], &rest].concat(), columns.saturating_sub(1));
    Marked { text: format!("{}{}", CUT, text), before: kept + 1 }
}

/// Whether a piece must be hidden so that the mark stands within the first half; if so, its columns come off.
fn past_half(kept: &mut usize, piece: &Piece, columns: usize) -> bool {
    let hide = *kept > columns / 2;
    if hide {
        *kept = kept.saturating_sub(piece.width);
    }
    hide
}

/// How many columns some pieces take.
fn width(pieces: &[Piece]) -> usize {
    pieces.iter().map(|piece| piece.width).sum()
}

/// Pieces in so many columns; where they need more they end with a sign.
fn cut_pieces(pieces: &[Piece], columns: usize) -> String {
    let all = || pieces.iter().map(|piece| piece.text.as_str());
    if width(pieces) <= columns {
        return all().collect();
    }
    let mut used = 1;
    let fits = |piece: &&Piece| {
        used += piece.width;
        used <= columns
    };
    let count = pieces.iter().take_while(fits).count();
    all().take(count).chain(iter::once(CUT)).collect()
}

/// The piece that the bytes begin with.
fn first_piece(bytes: &[u8]) -> Option<Piece> {
    let byte = *bytes.first()?;
    Some(match first_character(bytes) {
        Some('\t') => Piece { text: TAB.to_string(), width: 1, taken: 1 },
        Some('\\') if reads_as_a_sign(bytes) => byte_sign(byte),
        Some(letter) if !is_hidden(letter) && !is_sign(letter) => {
            Piece { text: letter.to_string(), width: columns_of(letter), taken: letter.len_utf8() }
        }
        Some(letter) if letter.len_utf8() > 1 => plain(format!("\\u{{{:X}}}", letter as u32), letter.len_utf8()),
        _ => byte_sign(byte),
    })
}

/// The sign of a byte.
fn byte_sign(byte: u8) -> Piece {
    plain(format!("\\x{:02X}", byte), 1)
}

/// A piece of plain characters.
fn plain(text: String, taken: usize) -> Piece {
    Piece { width: text.len(), text, taken }
}

/// Whether a character of the script would be taken for one of the signs.
fn is_sign(letter: char) -> bool {
    [TAB, CUT].iter().any(|sign| sign.chars().eq([letter]))
}

/// Whether the script has a backslash there and behind it what makes it look like the sign of a byte or of a
/// character.
fn reads_as_a_sign(bytes: &[u8]) -> bool {
    match bytes {
        [b'\\', b'x', high, low, ..] => high.is_ascii_hexdigit() && low.is_ascii_hexdigit(),
        [b'\\', b'u', b'{', rest @ ..] => {
            let digits = rest.split(|byte| *byte == b'}').next().filter(|digits| digits.len() < rest.len());
            digits.map_or(false, names_a_character)
        }
        _ => false,
    }
}

/// Whether bytes are hex digits that name a character.
fn names_a_character(digits: &[u8]) -> bool {
    let number = std::str::from_utf8(digits).ok().filter(|_| digits.iter().all(u8::is_ascii_hexdigit));
    number.and_then(|digits| u32::from_str_radix(digits, 16).ok()).and_then(char::from_u32).is_some()
}

/// The character that the bytes begin with in UTF-8, if they do with one.
fn first_character(bytes: &[u8]) -> Option<char> {
    (1..=4).find_map(|length| std::str::from_utf8(bytes.get(..length)?).ok()?.chars().next())
}

#[cfg(test)]
mod tests {
    use super::{cut, marked, pieces, shown, split, Marked};

    #[test]
    fn what_is_not_seen_has_a_sign() {
        assert_eq!(shown(b"a\tb \x00\x7f\xe2\x82"), "a→b \\x00\\x7F\\xE2\\x82");
        assert_eq!(shown("é€\u{85}\u{AD}\u{202E}\u{FEFF}".as_bytes()), "é€\\u{85}\\u{AD}\\u{202E}\\u{FEFF}");
    }

    #[test]
    fn what_the_script_has_of_the_signs_has_a_sign_too() {
        assert_eq!(shown("a→b…\t".as_bytes()), "a\\u{2192}b\\u{2026}→");
        // Written out in the script: the backslash has its sign, and what is behind it stays.
        assert_eq!(shown(b"\\x1B \\x1b \\u{AD} \\u{10ffff}"), "\\x5Cx1B \\x5Cx1b \\x5Cu{AD} \\x5Cu{10ffff}");
        assert_eq!(shown(b"\\x5C"), "\\x5Cx5C");
        assert_eq!(shown(b"\\\x1B"), "\\\\x1B");
    }

    #[test]
    fn a_backslash_that_reads_as_no_sign_stays() {
        for text in [
            "\\",
            "\\\\",
            "\\x1",
            "\\x1G",
            "\\n",
            "\\u{}",
            "\\u{AD",
            "\\u{110000}",
            "\\u{D800}",
            "\\u{+1}",
            "\\u{A D}",
            "/\\ \\/",
        ] {
            assert_eq!(shown(text.as_bytes()), text);
        }
    }

    #[test]
    fn a_line_is_split_before_the_piece_of_a_byte() {
        let texts = |line: &str, at| {
            let (front, rest) = split(line.as_bytes(), at);
            let text = |pieces: Vec<super::Piece>| pieces.into_iter().map(|piece| piece.text).collect::<String>();
            (text(front), text(rest))
        };
        let want = |front: &str, rest: &str| (front.to_string(), rest.to_string());
        assert_eq!(texts("a€b", 0), want("", "a€b"));
        assert_eq!(texts("a€b", 1), want("a", "€b"));
        assert_eq!(texts("a€b", 2), want("a", "€b"));
        assert_eq!(texts("a€b", 4), want("a€", "b"));
        assert_eq!(texts("a€b", 9), want("a€b", ""));
        // What stands before the place is read with what stands behind it.
        assert_eq!(texts("\\x1B", 1), want("\\x5C", "x1B"));
    }

    #[test]
    fn columns_are_those_of_a_terminal() {
        let widths = |text: &str| pieces(text.as_bytes()).map(|piece| piece.width).collect::<Vec<_>>();
        assert_eq!(widths("a漢e\u{301}\u{1F6A7}\x1b"), [1, 2, 1, 0, 2, 4]);
    }

    #[test]
    fn a_row_is_cut_before_what_has_no_room() {
        assert_eq!(cut(b"kerb", None), "kerb");
        assert_eq!(cut(b"kerb", Some(4)), "kerb");
        assert_eq!(cut(b"kerbs", Some(4)), "ker…");
        assert_eq!(cut("漢漢漢".as_bytes(), Some(4)), "漢…");
        assert_eq!(cut(b"ab\x00", Some(5)), "ab…");
    }

    #[test]
    fn a_mark_is_never_cut_off() {
        let line = b"0123456789abcdefghij";
        let at = |place, columns| marked(line, place, Some(columns));
        let want = |text: &str, before| Marked { text: text.to_string(), before };
        assert_eq!(at(0, 20), want("0123456789abcdefghij", 0));
        assert_eq!(at(19, 20), want("0123456789abcdefghij", 19));
        assert_eq!(at(20, 21), want("0123456789abcdefghij", 20));
        assert_eq!(at(3, 8), want("0123456…", 3));
        assert_eq!(at(10, 8), want("…6789ab…", 5));
        assert_eq!(at(20, 8), want("…ghij", 5));
        assert_eq!(at(99, 8), want("…ghij", 5));
    }
}
