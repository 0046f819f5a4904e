//! What a byte counts as.

use std::fmt;

use crate::foreign;
use crate::numbers::Class;

/// All that a byte counts as. In words, by `to_string`, its classes stand with commas between them; those of a byte
/// that counts as nothing are `none`.
///
/// ```
/// use puretakoi::{classes_of, Class};
///
/// assert!(classes_of(b'_').has(Class::IdentifierStart) && !classes_of(b'_').has(Class::Letter));
/// assert_eq!(classes_of(b'f').to_string(), "hex digit, letter, identifier start, identifier byte");
/// assert_eq!(classes_of(b'\n').to_string(), "none");
/// ```
#[derive(Clone, Copy, Debug, PartialEq, Eq, Hash)]
pub struct Classes(u32);

/// All that a byte counts as, as the library answers.
pub fn classes_of(byte: u8) -> Classes {
    Classes(foreign::classes_of(byte))
}

impl Classes {
    /// Their flags, added up.
    pub fn number(self) -> u32 {
        self.0
    }

    /// Whether a class is among them.
    pub fn has(self, class: Class) -> bool {
        self.0 & class.number() != 0
    }

    /// Whether the byte counts as nothing.
    pub fn is_none(self) -> bool {
        self.0 == 0
    }

    /// Each of them, by their numbers.
    pub fn each(self) -> impl Iterator<Item = Class> {
        Class::ALL.iter().copied().filter(move |class| self.has(*class))
    }
}

impl fmt::Display for Classes {
    fn fmt(&self, out: &mut fmt::Formatter) -> fmt::Result {
        let names: Vec<&str> = self.each().map(Class::name).collect();
        out.pad(&if names.is_empty() { "none".to_string() } else { names.join(", ") })
    }
}
