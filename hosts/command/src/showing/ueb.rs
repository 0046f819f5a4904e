//! Text in braille: uncontracted, by the rules of Unified English Braille, written in North American Braille ASCII. A
//! character that has no sign here is spelled by its number, as `\u{A9}`.

/// The characters of the patterns without dots 7 and 8, in the order of Unicode's braille patterns.
const ASCII: &[u8; 64] = b" A1B'K2L@CIF/MSP\"E3H9O6R^DJG>NTQ,*5<-U8V.%[$+X!&;:4\\0Z7(_?W]#Y)=";

/// Before a capital letter.
const CAPITAL: &str = ",";

/// Before a word, or the part of one, in capital letters.
const CAPITAL_WORD: &str = ",,";

/// Where small letters follow in a word of capital ones.
const CAPITALS_END: &str = ",'";

/// Before a number.
const NUMBER: char = '#';

/// Before a sign that would be taken for another: a letter from a to j behind a number, a question mark where a
/// quotation may open.
const GRADE_1: &str = ";";

/// The digits from 0 to 9, behind the sign of a number.
const DIGITS: &[u8; 10] = b"JABCDEFGHI";

/// At the end of a line where a word without a space goes on in the next one.
const GOES_ON: char = '"';

/// How far the lines behind the first of a text are indented.
const INDENTATION: &str = "  ";

/// Punctuation and signs.
const SIGNS: &[(char, &str)] = &[
    (' ', " "),
    ('.', "4"),
    (',', "1"),
    (':', "3"),
    (';', "2"),
    ('?', "8"),
    ('!', "6"),
    ('\'', "'"),
    ('’', "'"),
    ('‘', ",8"),
    ('`', ".*"),
    ('-', "-"),
    ('–', ",-"),
    ('—', ",-"),
    ('"', ",7"),
    ('“', "^8"),
    ('”', "^0"),
    ('(', "\"<"),
    (')', "\">"),
    ('[', ".<"),
    (']', ".>"),
    ('{', "_<"),
    ('}', "_>"),
    ('<', "@<"),
    ('>', "@>"),
    ('/', "_/"),
    ('\\', "_*"),
    ('_', ".-"),
    ('|', "_\\"),
    ('@', "@A"),
    ('&', "@&"),
    ('#', "_?"),
    ('*', "\"9"),
    ('+', "\"6"),
    ('=', "\"7"),
    ('%', ".0"),
    ('~', "@9"),
    ('^', "@5"),
    ('$', "@S"),
    ('€', "@E"),
    ('£', "@L"),
    ('°', "^J"),
    ('§', "^S"),
    ('×', "\"8"),
    ('÷', "\"/"),
    ('•', "_4"),
    ('→', ";\\O"),
    ('…', "444"),
    ('ß', ".!"),
    ('æ', "A^6E"),
    ('œ', "O^6E"),
];

/// Small letters with an accent: the letters, the sign before each, and the letters without it.
const ACCENTS: &[(&str, &str, &str)] = &[
    ("àèìòù", "^*", "AEIOU"),
    ("áéíóúýćńśź", "^/", "AEIOUYCNSZ"),
    ("âêîôû", "^%", "AEIOU"),
    ("ãñõ", "^]", "ANO"),
    ("äëïöüÿ", "^3", "AEIOUY"),
    ("åů", "^$", "AU"),
    ("çş", "^&", "CS"),
    ("čďěňřšťž", "^+", "CDENRSTZ"),
    ("āēīōū", "@-", "AEIOU"),
    ("ăğ", "@+", "AG"),
    ("øł", "@*", "OL"),
];

/// What the signs before one say of the next.
#[derive(Clone, Copy, PartialEq, Eq)]
enum Mode {
    /// Nothing.
    Plain,
    /// It belongs to a number.
    Number,
    /// A letter is a capital one.
    Capitals,
}

/// The character of a braille pattern, of which dots 7 and 8 are not taken.
pub fn letter(pattern: u8) -> char {
    char::from(ASCII[usize::from(pattern & 0x3F)])
}

/// A text in lines of at most `width` cells, which must be 10 at least: words go on behind a space, and long ones
/// anywhere.
pub fn lines(text: &str, width: usize) -> Vec<String> {
    let mut lines: Vec<String> = Vec::new();
    let pieces = text.split(' ').flat_map(|word| cut_word(&known(word), width - INDENTATION.len()));
    pieces.for_each(|piece| place(&mut lines, &piece, width));
    lines
}

/// Puts a word behind the last line's words, or where that has no room into a line of its own.
fn place(lines: &mut Vec<String>, word: &str, width: usize) {
    match lines.last_mut() {
        None => lines.push(word.to_string()),
        Some(line) if !line.ends_with(GOES_ON) && line.len() + 1 + word.len() <= width => {
            line.push(' ');
            line.push_str(word);
        }
        // Spaces at a line's end are not seen.
        _ if word.is_empty() => {}
        _ => lines.push(format!("{}{}", INDENTATION, word)),
    }
}

/// A word in braille, in parts of at most `width` cells; each but the last ends with a sign that it goes on, and each
/// has all its signs of numbers and capitals.
fn cut_word(word: &[char], width: usize) -> Vec<String> {
    let mut parts = Vec::new();
    let mut rest = word;
    while braille(rest).len() > width {
        let fits = |count: &usize| braille(&rest[..*count]).len() < width;
        let count = (1..rest.len().min(width)).rev().find(fits).unwrap_or(1);
        parts.push(format!("{}{}", braille(&rest[..count]), GOES_ON));
        rest = &rest[count..];
    }
    parts.push(braille(rest));
    parts
}

/// The characters of a text, those without a sign spelled.
fn known(text: &str) -> Vec<char> {
    let spelled =
        |letter: char| match small_letter(letter).is_some() || letter.is_ascii_digit() || sign(letter).is_some() {
            true => vec![letter],
            false => format!("\\u{{{:X}}}", letter as u32).chars().collect(),
        };
    text.chars().flat_map(spelled).collect()
}

/// Characters in braille.
fn braille(text: &[char]) -> String {
    let mut writer = Writer { out: String::new(), mode: Mode::Plain };
    for (letter, at) in text.iter().zip(1..) {
        let is_before_capital = text.get(at).map_or(false, |next| next.is_uppercase());
        match small_letter(*letter) {
            Some(small) => writer.put_letter(small, letter.is_uppercase(), is_before_capital),
            None if letter.is_ascii_digit() => writer.put_digit(*letter),
            None => writer.put_sign(*letter),
        }
    }
    writer.out
}

/// Braille that is being written.
struct Writer {
    out: String,
    mode: Mode,
}

impl Writer {
    /// Puts a letter, which comes as its accent and the letter without it.
    fn put_letter(&mut self, (accent, small): (&str, char), is_capital: bool, is_before_capital: bool) {
        let is_taken_for_a_digit = accent.is_empty() && ('A'..='J').contains(&small);
        let (sign, mode) = match (is_capital, self.mode) {
            (true, Mode::Capitals) => ("", Mode::Capitals),
            (true, _) if is_before_capital => (CAPITAL_WORD, Mode::Capitals),
            (true, _) => (CAPITAL, Mode::Plain),
            (false, Mode::Capitals) => (CAPITALS_END, Mode::Plain),
            (false, Mode::Number) if is_taken_for_a_digit => (GRADE_1, Mode::Plain),
            (false, _) => ("", Mode::Plain),
        };
        self.out.push_str(sign);
        self.out.push_str(accent);
        self.out.push(small);
        self.mode = mode;
    }

    /// Puts a digit.
    fn put_digit(&mut self, digit: char) {
        if self.mode != Mode::Number {
            self.out.push(NUMBER);
        }
        let place = digit.to_digit(10).unwrap_or(0) as usize;
        self.out.push(char::from(DIGITS[place]));
        self.mode = Mode::Number;
    }

    /// Puts any other character. A full stop and a comma belong to the number that they follow.
    fn put_sign(&mut self, letter: char) {
        if letter == '?' && self.out.is_empty() {
            self.out.push_str(GRADE_1);
        }
        self.out.push_str(sign(letter).unwrap_or_default());
        if self.mode != Mode::Number || !matches!(letter, '.' | ',') {
            self.mode = Mode::Plain;
        }
    }
}

/// The accent's sign, if there is one, and the letter without it.
fn small_letter(letter: char) -> Option<(&'static str, char)> {
    if letter.is_ascii_alphabetic() {
        return Some(("", letter.to_ascii_uppercase()));
    }
    let small = letter.to_lowercase().next()?;
    ACCENTS.iter().find_map(|(with, accent, without)| {
        let place = with.chars().position(|letter| letter == small)?;
        Some((*accent, without.chars().nth(place)?))
    })
}

/// The sign of a character that is no letter and no digit.
fn sign(letter: char) -> Option<&'static str> {
    SIGNS.iter().find(|(signed, _sign)| *signed == letter).map(|(_signed, sign)| *sign)
}

#[cfg(test)]
mod tests {
    use super::{letter, lines};

    /// A text that has room in one line.
    fn line(text: &str) -> String {
        lines(text, 200).concat()
    }

    #[test]
    fn patterns_have_their_characters() {
        // a (1), b (1 2), k (1 3), t (2 3 4 5), w (2 4 5 6), the capital sign (6), the number sign (3 4 5 6), all six,
        // none.
        let patterns = [0x01, 0x03, 0x05, 0x1E, 0x3A, 0x20, 0x3C, 0x3F, 0x00];
        assert_eq!(patterns.map(letter).iter().collect::<String>(), "ABKTW,#= ");
        // Full stop (2 5 6), hyphen (3 6), slash's second cell (3 4), dot 5, dots 4 5 6.
        assert_eq!([0x32, 0x24, 0x0C, 0x10, 0x38].map(letter).iter().collect::<String>(), "4-/\"_");
    }

    #[test]
    fn capitals() {
        assert_eq!(line("ok Kerb"), "OK ,KERB");
        assert_eq!(line("RELIEF A"), ",,RELIEF ,A");
        assert_eq!(line("EODs McDonald"), ",,EOD,'S ,MC,DONALD");
        assert_eq!(line("A-B ROW_B"), ",A-,B ,,ROW.-,B");
    }

    #[test]
    fn numbers() {
        assert_eq!(line("1 20 395"), "#A #BJ #CIE");
        // A letter from a to j behind a number wants a sign before it, others do not, nor do capital ones.
        assert_eq!(line("3a 3j 3k 3A 3bc"), "#C;A #C;J #CK #C,A #C;BC");
        assert_eq!(line("65,536 1.5 9. 1.doc 2.php"), "#FE1ECF #A4E #I4 #A4;DOC #B4PHP");
        assert_eq!(line("12:6 5/7 v2"), "#AB3#F #E_/#G V#B");
    }

    #[test]
    fn punctuation_of_paths_and_sentences() {
        assert_eq!(line("a/b_c-d.php: ok, (or) not; why? yes!"), "A_/B.-C-D4PHP3 OK1 \"<OR\"> NOT2 WHY8 YES6");
        assert_eq!(line("it's \"x\" <<<'A' \\u{AD}"), "IT'S ,7X,7 @<@<@<',A' _*U_<,,AD_>");
        assert_eq!(line("? ?> /* #1 $a = [2]"), ";8 ;8@> _/\"9 _?#A @SA \"7 .<#B.>");
    }

    #[test]
    fn accents_stand_before_their_letters() {
        assert_eq!(line("Rue Émile Zürich façade"), ",RUE ,^/EMILE ,Z^3URICH FA^&CADE");
        assert_eq!(line("ÖL 2ä Łódź Straße"), ",,^3OL #B^3A ,@*L^/OD^/Z ,STRA.!E");
    }

    #[test]
    fn what_has_no_sign_is_spelled() {
        assert_eq!(line("©漢"), "_*U_<,A#I_>_*U_<#F,F#BB_>");
    }

    #[test]
    fn words_go_on_in_the_next_line() {
        assert_eq!(lines("the kerb is here", 12), ["THE KERB IS", "  HERE"]);
        assert_eq!(lines("the kerbs is", 12), ["THE KERBS IS"]);
        assert_eq!(lines("", 12), [""]);
        assert_eq!(lines("  a  b", 12), ["  A  B"]);
    }

    #[test]
    fn a_long_word_goes_on_with_its_signs() {
        // Eight cells are left for a word behind an indentation of two: seven and the sign that it goes on.
        assert_eq!(lines("abcdefghijklm", 10), ["ABCDEFG\"", "  HIJKLM"]);
        assert_eq!(lines("12345678", 10), ["#ABCDEF\"", "  #GH"]);
        assert_eq!(lines("ABCDEFGH", 10), [",,ABCDE\"", "  ,,FGH"]);
        // A sign of two cells is not parted.
        assert_eq!(lines("abcdef/g h", 10), ["ABCDEF\"", "  _/G H"]);
    }
}
