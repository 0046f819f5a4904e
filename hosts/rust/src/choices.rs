//! What the owner of a session chooses, as flags in one of its numbers.

use crate::numbers::choices::{CHOICE_OCTAL_MANUAL, CHOICE_SHEETS};

/// How nowdoc blocks are read.
#[derive(Clone, Copy, Debug, Default, PartialEq, Eq, Hash)]
pub enum Reading {
    /// As the lexer that was carried over reads them.
    #[default]
    Ported,
    /// As a sheet: the closing line's indentation comes off each row, and no letter, digit, `_` or byte from 0x80 on stands
    /// behind a closing label.
    Sheet,
}

/// What an octal escape over 377 is, `\400` to `\777` in double quotes and heredocs.
#[derive(Clone, Copy, Debug, Default, PartialEq, Eq, Hash)]
pub enum Octal {
    /// Refused with 3, as by the Rust, the lexer that was carried over.
    #[default]
    Rust,
    /// The byte of its low eight bits, as the PHP manual has it: `\400` is 0, `\777` is 255. No call gives 3.
    Manual,
}

/// The choices of a session. A reading or an octal alone may stand for them: the rest is then as by default, which is
/// as the Rust does. More choices may come, so name those that you make and take the others from the default:
///
/// ```
/// use puretakoi::{Choices, Octal, Reading};
///
/// let sheets = Choices { nowdocs: Reading::Sheet, ..Choices::default() };
/// assert_eq!((sheets, sheets.octals), (Choices::from(Reading::Sheet), Octal::Rust));
/// ```
#[derive(Clone, Copy, Debug, Default, PartialEq, Eq, Hash)]
pub struct Choices {
    /// How nowdoc blocks are read.
    pub nowdocs: Reading,
    /// What an octal escape over 377 is.
    pub octals: Octal,
}

impl From<Reading> for Choices {
    fn from(nowdocs: Reading) -> Choices {
        Choices { nowdocs, ..Choices::default() }
    }
}

impl From<Octal> for Choices {
    fn from(octals: Octal) -> Choices {
        Choices { octals, ..Choices::default() }
    }
}

impl Choices {
    /// Their flags, added up.
    pub(crate) fn number(self) -> u32 {
        let nowdocs = match self.nowdocs {
            Reading::Ported => 0,
            Reading::Sheet => CHOICE_SHEETS,
        };
        let octals = match self.octals {
            Octal::Rust => 0,
            Octal::Manual => CHOICE_OCTAL_MANUAL,
        };
        nowdocs + octals
    }

    /// The choices of a number; none where a bit is no flag.
    pub(crate) fn of(number: u32) -> Option<Choices> {
        if number & !(CHOICE_SHEETS | CHOICE_OCTAL_MANUAL) != 0 {
            return None;
        }
        let nowdocs = if number & CHOICE_SHEETS == 0 { Reading::Ported } else { Reading::Sheet };
        let octals = if number & CHOICE_OCTAL_MANUAL == 0 { Octal::Rust } else { Octal::Manual };
        Some(Choices { nowdocs, octals })
    }
}
