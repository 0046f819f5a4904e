//! Bytes by name, also for those who listen: a screen reader leaves out most punctuation, and the letters' case.

/// Bytes that have a name of their own in words.
const NAMES: [(u8, &str); 40] = [
    (0x00, "NUL"),
    (b'\t', "tab"),
    (b'\n', "line feed (LF)"),
    (0x0B, "vertical tab (VT)"),
    (0x0C, "form feed"),
    (b'\r', "carriage return (CR)"),
    (b' ', "space"),
    (b'!', "exclamation mark"),
    (b'"', "double quote"),
    (b'#', "hash"),
    (b'$', "dollar"),
    (b'%', "percent"),
    (b'&', "ampersand"),
    (b'\'', "single quote"),
    (b'(', "left parenthesis"),
    (b')', "right parenthesis"),
    (b'*', "asterisk"),
    (b'+', "plus"),
    (b',', "comma"),
    (b'-', "hyphen"),
    (b'.', "full stop"),
    (b'/', "slash"),
    (b':', "colon"),
    (b';', "semicolon"),
    (b'<', "less than"),
    (b'=', "equals"),
    (b'>', "greater than"),
    (b'?', "question mark"),
    (b'@', "at"),
    (b'[', "left bracket"),
    (b'\\', "backslash"),
    (b']', "right bracket"),
    (b'^', "circumflex"),
    (b'_', "underscore"),
    (b'`', "backtick"),
    (b'{', "left brace"),
    (b'|', "vertical bar"),
    (b'}', "right brace"),
    (b'~', "tilde"),
    (0x7F, "DEL"),
];

/// The control bytes by their names in ASCII, from 0 on.
const CONTROLS: [&str; 32] = [
    "NUL", "SOH", "STX", "ETX", "EOT", "ENQ", "ACK", "BEL", "BS", "HT", "LF", "VT", "FF", "CR", "SO", "SI", "DLE",
    "DC1", "DC2", "DC3", "DC4", "NAK", "SYN", "ETB", "CAN", "EM", "SUB", "ESC", "FS", "GS", "RS", "US",
];

/// Of which sort a byte is by its name: neighbours of one sort may share a line, a byte with a name of its own not.
#[derive(Clone, Copy, Debug, PartialEq, Eq)]
pub enum Sort {
    /// Its own name.
    Own(&'static str),
    /// A word for one, which has an s for several.
    Of(&'static str),
    /// A byte from 0x80 on.
    Beyond,
}

/// Of which sort a byte is.
pub fn sort(byte: u8) -> Sort {
    if let Some((_, name)) = NAMES.iter().find(|(own, _)| *own == byte) {
        return Sort::Own(name);
    }
    match byte {
        b'0'..=b'9' => Sort::Of("digit"),
        b'A'..=b'Z' => Sort::Of("capital letter"),
        b'a'..=b'z' => Sort::Of("small letter"),
        0x80..=0xFF => Sort::Beyond,
        _ => Sort::Of("control byte"),
    }
}

/// A byte, or bytes of one sort from the first to the last, by name and glyph.
pub fn called(first: u8, last: u8) -> String {
    match sort(first) {
        Sort::Own(name) => [name, &glyph(first)].join(" ").trim_end().to_string(),
        Sort::Of(word) if first == last => format!("{} {}", word, short(first)),
        Sort::Of(word) => format!("{}s {} to {}", word, short(first), short(last)),
        Sort::Beyond => "beyond ASCII".to_string(),
    }
}

/// A byte, or bytes of any sort from the first to the last, within a sentence.
pub fn prose(first: u8, last: u8) -> String {
    let one = |byte| match sort(byte) {
        Sort::Own(_) => called(byte, byte),
        Sort::Of(_) => short(byte),
        Sort::Beyond => format!("0x{:02X}", byte),
    };
    match first == last {
        true => one(first),
        false => format!("{} to {}", one(first), one(last)),
    }
}

/// A byte as it is written, or a control byte's name.
fn short(byte: u8) -> String {
    CONTROLS.get(usize::from(byte)).map_or_else(|| glyph(byte), |name| name.to_string())
}

/// A byte that can be seen, as Markdown shows it just so; else nothing.
fn glyph(byte: u8) -> String {
    match byte {
        b'`' => "\\`".to_string(),
        byte if byte.is_ascii_graphic() => format!("`{}`", char::from(byte)),
        _ => String::new(),
    }
}

#[cfg(test)]
mod tests {
    use super::{called, prose, sort, Sort};

    #[test]
    fn one_and_several() {
        assert_eq!(
            (called(b'A', b'A'), called(b'A', b'F')),
            ("capital letter `A`".into(), "capital letters `A` to `F`".into())
        );
        assert_eq!(
            (called(0x1B, 0x1B), called(0x01, 0x08)),
            ("control byte ESC".into(), "control bytes SOH to BS".into())
        );
        assert_eq!((called(b'`', b'`'), called(b' ', b' ')), ("backtick \\`".into(), "space".into()));
        assert_eq!((called(0xC3, 0xC3), called(0x7F, 0x7F)), ("beyond ASCII".to_string(), "DEL".to_string()));
    }

    #[test]
    fn in_a_sentence() {
        assert_eq!((prose(b'0', b'9'), prose(0x80, 0xFF)), ("`0` to `9`".to_string(), "0x80 to 0xFF".to_string()));
        assert_eq!((prose(b'\'', b'\''), prose(b'\t', b'\t')), ("single quote `'`".to_string(), "tab".to_string()));
    }

    /// Each byte that is no letter, no digit and no control byte has a name of its own, and no two have the same.
    #[test]
    fn own_names() {
        let own = |byte: &u8| matches!(sort(*byte), Sort::Own(_));
        assert!((0..=0x7F).filter(u8::is_ascii_punctuation).all(|byte| own(&byte)));
        let mut names: Vec<String> = (0..=0x7F).filter(own).map(|byte| called(byte, byte)).collect();
        names.sort();
        names.dedup();
        assert_eq!(names.len(), 40);
    }
}
