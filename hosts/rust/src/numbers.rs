//! The numbers of include/puretakoi.h, each by its name there without the prefix; a test holds them to the header.

/// Constants with a line on each, and in tests a list of them by name.
macro_rules! constants {
    ($visible:vis $type:ident: $($(#[$line:meta])* $name:ident = $value:literal;)*) => {
        $($(#[$line])* $visible const $name: $type = $value;)*

        #[cfg(test)]
        pub(crate) const NAMED: &[(&str, $type)] = &[$((stringify!($name), $name)),*];
    };
}

/// An enum of numbers that have a name in words each, and a module of constants with the same numbers.
macro_rules! numbered {
    (
        $(#[$on_enum:meta])* $enum:ident, $(#[$on_module:meta])* $module:ident:
        $($(#[$line:meta])* $variant:ident = $name:ident = $value:literal, $words:literal;)*
    ) => {
        $(#[$on_module])*
        pub mod $module {
            constants! { pub u32: $($(#[$line])* $name = $value;)* }
        }

        $(#[$on_enum])*
        #[derive(Clone, Copy, Debug, PartialEq, Eq, Hash, PartialOrd, Ord)]
        #[non_exhaustive]
        pub enum $enum {
            $($(#[$line])* $variant = $value,)*
        }

        impl $enum {
            /// All of them, by their numbers.
            pub const ALL: &'static [$enum] = &[$($enum::$variant),*];

            /// Its number.
            pub fn number(self) -> u32 {
                self as u32
            }

            /// The one that has this number.
            pub fn of(number: u32) -> Option<$enum> {
                match number {
                    $($value => Some($enum::$variant),)*
                    _ => None,
                }
            }

            /// Its name in words.
            pub fn name(self) -> &'static str {
                match self {
                    $($enum::$variant => $words,)*
                }
            }
        }
    };
}

/// How much the library takes.
pub mod limits {
    constants! { pub usize:
        /// Bytes of a source, and of a pool.
        MOST_BYTES = 65_536;
        /// Places of a list.
        MOST_TOKENS = 65_537;
        /// Frames of a mode stack.
        MOST_FRAMES = 64;
        /// Bytes of a text block's label.
        MOST_LABEL = 64;
    }
}

numbered! {
    /// Why a call is refused.
    Reason,
    /// Refusals by name.
    refusals:
    /// Something is still open where the source ends.
    UnexpectedEndOfFile = UNEXPECTED_END_OF_FILE = 1, "unexpected end of file";
    /// `\u{..}` names no code point.
    InvalidUnicodeEscape = INVALID_UNICODE_ESCAPE = 2, "invalid unicode escape";
    /// An octal escape is over 377, and octals are as the Rust has them.
    InvalidOctalEscape = INVALID_OCTAL_ESCAPE = 3, "invalid octal escape";
    /// A closing line mixes spaces and tabs.
    InvalidDocIndentation = INVALID_DOC_INDENTATION = 4, "invalid indentation of a closer";
    /// Neither arrow nor name where a property is looked for.
    NoProperty = NO_PROPERTY = 5, "no property";
    /// Lend more of the script, or announce its end.
    Wait = WAIT = 6, "wait";
    /// More tokens than places left.
    ListFull = LIST_FULL = 7, "list full";
    /// More value bytes than pool left.
    PoolFull = POOL_FULL = 8, "pool full";
    /// A frame would be the 65th.
    StackFull = STACK_FULL = 9, "stack full";
    /// The call does not fit.
    OutOfPlace = OUT_OF_PLACE = 10, "out of place";
    /// Source or pool over 65,536 bytes, or list over 65,537 tokens.
    TooLarge = TOO_LARGE = 11, "too large";
    /// The numbers are no session, or one outside its bounds.
    BadSession = BAD_SESSION = 12, "bad session";
    /// A row of a sheet starts with less than the closing line's indentation.
    StrayIndentation = STRAY_INDENTATION = 13, "stray indentation";
}

numbered! {
    /// Which token it is.
    Kind,
    /// Kinds of tokens by name.
    kinds:
    /// Text outside tags.
    InlineHtml = INLINE_HTML = 1, "inline text";
    /// `<?php`, its value in the script's letter case.
    OpenTagFull = OPEN_TAG_FULL = 2, "full open tag";
    /// `<?=`
    OpenTagEcho = OPEN_TAG_ECHO = 3, "echo open tag";
    /// `<?`
    OpenTagShort = OPEN_TAG_SHORT = 4, "short open tag";
    /// Text before an interpolation or a closer.
    StringPart = STRING_PART = 5, "string part";
    /// `${`
    DollarLeftBrace = DOLLAR_LEFT_BRACE = 6, "dollar and left brace";
    /// `{` before a variable.
    LeftBrace = LEFT_BRACE = 7, "left brace";
    /// The closing double quote.
    DoubleQuote = DOUBLE_QUOTE = 8, "double quote";
    /// The closing backtick.
    Backtick = BACKTICK = 9, "backtick";
    /// `$name`
    Variable = VARIABLE = 10, "variable";
    /// The end of a text block, not indented.
    EndDocStringNone = END_DOC_STRING_NONE = 11, "end of text block, not indented";
    /// The end of a text block, indented by spaces.
    EndDocStringSpace = END_DOC_STRING_SPACE = 12, "end of text block, indented by spaces";
    /// The end of a text block, indented by tabs.
    EndDocStringTab = END_DOC_STRING_TAB = 13, "end of text block, indented by tabs";
    /// A name.
    Identifier = IDENTIFIER = 14, "identifier";
    /// `?->`
    QuestionArrow = QUESTION_ARROW = 15, "question arrow";
    /// `->`
    Arrow = ARROW = 16, "arrow";
    /// `'..'`
    LiteralSingleQuotedString = LITERAL_SINGLE_QUOTED_STRING = 17, "single-quoted string";
    /// `".."` without interpolation.
    LiteralDoubleQuotedString = LITERAL_DOUBLE_QUOTED_STRING = 18, "double-quoted string";
    /// A whole number.
    LiteralInteger = LITERAL_INTEGER = 19, "integer";
    /// A number with a point or an exponent.
    LiteralFloat = LITERAL_FLOAT = 20, "float";
    /// `// ..`, `# ..` or `/* .. */`, its bytes as they stand.
    Comment = COMMENT = 21, "comment";
}

numbered! {
    /// What a byte may count as. Its number is a flag, which `Classes` adds up.
    Class,
    /// Classes of bytes by name, a flag each.
    classes:
    /// A space or a tab.
    Blank = BLANK = 1, "blank";
    /// A digit, 0 to 7.
    OctalDigit = OCTAL = 2, "octal digit";
    /// A digit, 0 to 9.
    Digit = DIGIT = 4, "digit";
    /// A hex digit, 0 to 9, A to F, a to f.
    HexDigit = HEX = 8, "hex digit";
    /// A letter of ASCII.
    Letter = LETTER = 16, "letter";
    /// An identifier may start with it: a letter, `_`, 0x80 to 0xFF.
    IdentifierStart = START = 32, "identifier start";
    /// An identifier may have it after its start: digits too.
    Identifier = IDENTIFIER = 64, "identifier byte";
    /// One of `'`, `"`, `` ` ``, `.`, `{`, `}`, `?`, `<`, `/`, `#`: in a script each may begin something of its own.
    Sign = SIGN = 128, "sign";
}

/// Where the numbers of a session, an answer, a record and of what was found stand, and how many each has.
pub(crate) mod layout {
    constants! { pub usize:
        SESSION = 199;
        POSITION = 0;
        LINE = 1;
        COLUMN = 2;
        DEPTH = 3;
        TOKENS = 4;
        BYTES = 5;
        CHOICES = 6;
        SLOTS = 7;
        SLOT = 3;
        ANSWER = 5;
        ANSWER_COUNTED = 6;
        ANSWER_WAY = 0;
        ANSWER_REFUSAL = 1;
        ANSWER_LINE = 2;
        ANSWER_COLUMN = 3;
        ANSWER_POSITION = 4;
        ANSWER_STEPS = 5;
        RECORD = 8;
        RECORD_KIND = 0;
        RECORD_DETAIL = 1;
        RECORD_LINE = 2;
        RECORD_COLUMN = 3;
        RECORD_POSITION = 4;
        RECORD_START = 5;
        RECORD_LENGTH = 6;
        RECORD_END = 7;
        /// The least that can be lent; the wrapper lends one more, for the end.
        #[allow(dead_code)]
        FOUND = 3;
        FOUND_ENDED = 4;
        FOUND_ANY = 0;
        FOUND_RECORD = 1;
        FOUND_LOOKS = 2;
        FOUND_END = 3;
    }
}

/// What stands in a session and an answer: choices, frames, ways.
pub(crate) mod choices {
    constants! { pub u32:
        CHOICE_SHEETS = 1;
        CHOICE_OCTAL_MANUAL = 2;
        FRAME_INITIAL = 0;
        FRAME_SCRIPTING = 1;
        FRAME_DOUBLE_QUOTE = 2;
        FRAME_SHELL_EXEC = 3;
        FRAME_HEREDOC = 4;
        FRAME_NOWDOC = 5;
        FRAME_LOOKING_FOR_VARNAME = 6;
        FRAME_LOOKING_FOR_PROPERTY = 7;
        FRAME_VAR_OFFSET = 8;
        DONE = 0;
        FINISHED = 1;
        /// Any way that is neither of the two is read as this one.
        #[allow(dead_code)]
        REFUSED = 2;
    }
}
