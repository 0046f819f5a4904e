//! The byte classes of identifiers, as document 01 gives them (the six Rust files hold no text of these macros).

/// A start byte: a letter, `_` or 0x80 to 0xFF.
macro_rules! ident_start {
    () => {
        b'a'..=b'z' | b'A'..=b'Z' | b'_' | 0x80..=0xff
    };
}

/// A later byte: a start byte or a digit.
macro_rules! ident {
    () => {
        b'0'..=b'9' | b'a'..=b'z' | b'A'..=b'Z' | b'_' | 0x80..=0xff
    };
}

pub(crate) use {ident, ident_start};
