//! What each byte counts as: by hand, by document 01's and the PHP manual's words, and as identifiers are read.

use puretakoi::{classes, classes_of, peek_identifier, Class};

/// Bytes and what they count as.
const BY_HAND: &[(u8, &[Class])] = &[
    (b' ', &[Class::Blank]),
    (b'\t', &[Class::Blank]),
    (b'\n', &[]),
    (b'\r', &[]),
    (0x0B, &[]),
    (0x0C, &[]),
    (0x00, &[]),
    (b'0', &[Class::OctalDigit, Class::Digit, Class::HexDigit, Class::Identifier]),
    (b'7', &[Class::OctalDigit, Class::Digit, Class::HexDigit, Class::Identifier]),
    (b'8', &[Class::Digit, Class::HexDigit, Class::Identifier]),
    (b'9', &[Class::Digit, Class::HexDigit, Class::Identifier]),
    (b':', &[]),
    (b'@', &[]),
    (b'A', &[Class::HexDigit, Class::Letter, Class::IdentifierStart, Class::Identifier]),
    (b'f', &[Class::HexDigit, Class::Letter, Class::IdentifierStart, Class::Identifier]),
    (b'g', &[Class::Letter, Class::IdentifierStart, Class::Identifier]),
    (b'G', &[Class::Letter, Class::IdentifierStart, Class::Identifier]),
    (b'Z', &[Class::Letter, Class::IdentifierStart, Class::Identifier]),
    (b'[', &[]),
    (b'_', &[Class::IdentifierStart, Class::Identifier]),
    (b'`', &[Class::Sign]),
    (b'\'', &[Class::Sign]),
    (b'$', &[]),
    (b'\\', &[]),
    (0x7F, &[]),
    (0x80, &[Class::IdentifierStart, Class::Identifier]),
    (0xFF, &[Class::IdentifierStart, Class::Identifier]),
];

/// Whether the words of document 01, of the PHP manual and of the header have a byte in a class.
fn is_said(class: Class, byte: u8) -> bool {
    match class {
        Class::Blank => [b' ', b'\t'].contains(&byte),
        Class::OctalDigit => (b'0'..=b'7').contains(&byte),
        Class::Digit => byte.is_ascii_digit(),
        Class::HexDigit => byte.is_ascii_hexdigit(),
        Class::Letter => byte.is_ascii_alphabetic(),
        Class::IdentifierStart => byte.is_ascii_alphabetic() || byte == b'_' || byte >= 0x80,
        Class::Identifier => byte.is_ascii_alphanumeric() || byte == b'_' || byte >= 0x80,
        Class::Sign => b"'\"`.{}?</#".contains(&byte),
        other => panic!("no words for {}", other.name()),
    }
}

#[test]
fn by_hand() {
    for (byte, expected) in BY_HAND {
        let found = classes_of(*byte);
        assert_eq!(found.each().collect::<Vec<_>>(), *expected, "byte {:#04X}", byte);
        assert_eq!(found.is_none(), expected.is_empty(), "byte {:#04X}", byte);
    }
}

#[test]
fn every_byte_by_the_words() {
    assert_eq!(Class::ALL.len(), 8);
    for byte in 0..=u8::MAX {
        for class in Class::ALL {
            assert_eq!(classes_of(byte).has(*class), is_said(*class, byte), "{} {:#04X}", class.name(), byte);
        }
        let sum: u32 = classes_of(byte).each().map(Class::number).sum();
        assert_eq!(classes_of(byte).number(), sum, "a flag without a name, byte {:#04X}", byte);
    }
}

/// A byte alone, and one after a letter, are identifiers where the classes say so.
#[test]
fn identifiers_are_read_by_them() {
    for byte in 0..=u8::MAX {
        assert_eq!(peek_identifier(&[byte], 0).is_some(), classes_of(byte).has(Class::IdentifierStart));
        assert_eq!(peek_identifier(&[b'a', byte], 0) == Some(0..2), classes_of(byte).has(Class::Identifier));
    }
}

#[test]
fn in_words() {
    assert_eq!(classes_of(b'3').to_string(), "octal digit, digit, hex digit, identifier byte");
    assert_eq!(classes_of(0xC3).to_string(), "identifier start, identifier byte");
    assert_eq!(classes_of(b'\t').to_string(), "blank");
    assert_eq!(classes_of(b'#').to_string(), "sign");
    assert_eq!(format!("{:>6}", classes_of(0x7F)), "  none");
    assert_eq!((Class::of(classes::HEX), Class::of(3), Class::of(256)), (Some(Class::HexDigit), None, None));
}
