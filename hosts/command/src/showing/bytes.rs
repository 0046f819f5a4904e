//! The page of bytes for transcribers. What a byte counts as is asked of the library, byte by byte, and stands nowhere
//! here.

use std::ops::RangeInclusive;

use puretakoi::{classes_of, Class, Classes};

use crate::reading::fault::counted;
use crate::showing::byte_names::{called, prose, sort};

/// Bytes that stand side by side.
pub type Run = RangeInclusive<u8>;

/// The columns that a line of the page has at most.
const COLUMNS: usize = 119;

/// What the page is for, and how it is read.
const HEAD: &str = "\
# What each byte counts as

For transcribers: which bytes of a script count as letters, digits, blanks or identifier bytes, and which as none. All
256 stand here twice: as letters in a grid, of which a row fits a braille display of 40 cells, and in words in a list.
The list is the form to listen to: it names each byte in words, also the punctuation that a screen reader leaves out.

`puretakoi bytes` prints this page from what the proved library answers for each byte; `hosts/run` fails where the page
has another text. `puretakoi bytes _ 0x7F é` prints the lines of these bytes alone.
";

/// What stands before the classes.
const CLASSES: &str = "\
## The classes

A byte may have several. What each decides in a script:
";

/// What stands before the grid.
const GRID: &str = "\
## The grid

One letter stands for all classes of a byte. The letters are those of the library's own table,
crates/byte/src/classes.rt, where its tests of bytes look. In the grid the letters B and E are also heads of a row and
a column, and O is the letter, never the digit 0.
";

/// What stands between the letters and the grid.
const ROWS: &str = "\
A byte's first hex digit tells the row, its second the column: 0x5F, the underscore, is in row 5, column F.
";

/// What stands before the list.
const LIST: &str = "\
## The list

The byte in hex, in decimal, its name, and its classes in words. Neighbours that have the same classes share a line.
";

/// What each class decides.
const DECIDES: [(Class, &str); 8] = [
    (
        Class::Blank,
        "Blanks indent a closing line, and as many come off each row before it. A line break is no blank, nor is a \
         no-break space.",
    ),
    (
        Class::OctalDigit,
        "Up to three stand in an octal escape, as in `\\101`; they are the digits of a number with 0o before it, as in \
         `0o17`.",
    ),
    (Class::Digit, "A number begins with one, or with a full stop and one."),
    (
        Class::HexDigit,
        "They stand in escapes, as in `\\x41` and `\\u{2192}`, and are the digits of a number with 0x before it, as in \
         `0x1F`.",
    ),
    (
        Class::Letter,
        "A letter of ASCII, in either case. One with an accent is two or more bytes in UTF-8; none of them is a letter \
         here, but each is an identifier byte.",
    ),
    (Class::IdentifierStart, "Each name begins with one: a variable's, a property's, the label of a text block."),
    (
        Class::Identifier,
        "A name goes on up to the first byte that is none. In a sheet a label closes its block only where no \
         identifier byte stands behind it.",
    ),
    (
        Class::Sign,
        "Outside strings and comments each may begin something of its own: a string, a command, a number, a part in \
         braces or its end, the end of a tag, a text block, a comment.",
    ),
];

/// The letters of the grid, in the order of the library's table, and the classes that each stands for.
const LETTERS: [(char, &[Class]); 8] = [
    ('S', &[Class::Sign]),
    ('O', &[Class::OctalDigit, Class::Digit, Class::HexDigit, Class::Identifier]),
    ('E', &[Class::Digit, Class::HexDigit, Class::Identifier]),
    ('H', &[Class::HexDigit, Class::Letter, Class::IdentifierStart, Class::Identifier]),
    ('L', &[Class::Letter, Class::IdentifierStart, Class::Identifier]),
    ('U', &[Class::IdentifierStart, Class::Identifier]),
    ('N', &[]),
    ('B', &[Class::Blank]),
];

/// The whole page.
pub fn page() -> String {
    let classes: String = DECIDES.iter().map(|(class, decides)| class_entry(*class, decides)).collect();
    let letters: String = LETTERS.iter().map(|(letter, _)| letter_entry(*letter)).collect();
    let lines: String = runs(|byte| (sort(byte), classes_of(byte))).into_iter().map(line).collect();
    let parts = [HEAD, CLASSES, &classes, GRID, &letters, ROWS, &grid(), LIST, &lines];
    parts.join("\n")
}

/// The line of bytes that have the same classes.
pub fn line(run: Run) -> String {
    let (first, last) = (*run.start(), *run.end());
    let (hex, decimal) = match first == last {
        true => (format!("0x{:02X}", first), first.to_string()),
        false => (format!("0x{:02X} to 0x{:02X}", first, last), format!("{} to {}", first, last)),
    };
    format!("- {}, {}, {}: {}\n", hex, decimal, called(first, last), classes_of(first))
}

/// A class: its bytes, and what it decides.
fn class_entry(class: Class, decides: &str) -> String {
    let has = |byte: &u8| classes_of(*byte).has(class);
    let mut all = runs(|byte| (sort(byte), has(&byte)));
    all.retain(|run| has(run.start()));
    let bytes: Vec<String> = all.iter().map(|run| prose(*run.start(), *run.end())).collect();
    let count = counted((0..=u8::MAX).filter(has).count(), "byte");
    filled(&format!("- **{}**, {}: {}. {}", class.name(), count, bytes.join(", "), decides))
}

/// A letter of the grid: how many bytes have it, and the classes that it stands for.
fn letter_entry(letter: char) -> String {
    let all: Vec<Classes> = (0..=u8::MAX).map(classes_of).filter(|found| letter_of(*found) == letter).collect();
    let words = all.first().map_or_else(String::new, Classes::to_string);
    format!("- **{}**, {}: {}\n", letter, counted(all.len(), "byte"), words)
}

/// The letter of just these classes.
fn letter_of(classes: Classes) -> char {
    let is_it = |(_, own): &&(char, &[Class])| classes.each().eq(own.iter().copied());
    LETTERS.iter().find(is_it).map_or('?', |(letter, _)| *letter)
}

/// Sixteen rows and columns, headed by hex digits.
fn grid() -> String {
    let spaced = |letters: Vec<String>| letters.join(" ");
    let heads = spaced((0..16).map(|column| format!("{:X}", column)).collect());
    let row = |row: u8| spaced((0..16).map(|column| letter_of(classes_of(16 * row + column)).to_string()).collect());
    let rows: String = (0..16).map(|number| format!("    {:X}  {}\n", number, row(number))).collect();
    format!("       {}\n{}", heads, rows)
}

/// All bytes in order, neighbours of which the same is told in one run.
fn runs<T: PartialEq>(told: impl Fn(u8) -> T) -> Vec<Run> {
    let mut all: Vec<Run> = Vec::new();
    for byte in 0..=u8::MAX {
        match all.last_mut() {
            Some(run) if told(*run.end()) == told(byte) => *run = *run.start()..=byte,
            _ => all.push(byte..=byte),
        }
    }
    all
}

/// A text in lines that are not too long, all but the first indented as an entry of a list is.
fn filled(text: &str) -> String {
    let mut lines: Vec<String> = Vec::new();
    for word in text.split(' ') {
        match lines.last_mut() {
            Some(line) if line.chars().count() + 1 + word.chars().count() <= COLUMNS => *line += &format!(" {}", word),
            Some(_) => lines.push(format!("  {}", word)),
            None => lines.push(word.to_string()),
        }
    }
    lines.join("\n") + "\n"
}

#[cfg(test)]
mod tests {
    use super::{filled, letter_of, line, DECIDES, LETTERS};
    use puretakoi::{classes_of, Class};

    #[test]
    fn each_class_is_explained() {
        assert!(DECIDES.iter().map(|(class, _)| class).eq(Class::ALL));
    }

    #[test]
    fn each_letter_is_of_a_byte() {
        for (letter, _) in LETTERS {
            assert!((0..=u8::MAX).any(|byte| letter_of(classes_of(byte)) == letter), "{}", letter);
        }
    }

    #[test]
    fn lines_by_hand() {
        assert_eq!(line(b'_'..=b'_'), "- 0x5F, 95, underscore `_`: identifier start, identifier byte\n");
        assert_eq!(
            line(b'8'..=b'9'),
            "- 0x38 to 0x39, 56 to 57, digits `8` to `9`: digit, hex digit, identifier byte\n"
        );
    }

    #[test]
    fn a_long_text_is_broken_between_words() {
        let (most, word) = ("a".repeat(117), "b".repeat(3));
        assert_eq!(filled(&format!("{} b c", most)), format!("{} b\n  c\n", most));
        assert_eq!(filled(&format!("{} {}", most, word)), format!("{}\n  {}\n", most, word));
    }
}
