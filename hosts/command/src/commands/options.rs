//! The options: each stands here once, and a verb names those that it takes.

/// An option.
#[derive(Debug, PartialEq, Eq)]
pub struct Choice {
    /// Its names, the shortest first.
    pub names: &'static [&'static str],
    /// What stands behind it.
    pub wants: Wants,
    /// What it does, for `--help`.
    pub help: &'static str,
}

/// What an option wants behind it.
#[derive(Debug, PartialEq, Eq)]
pub enum Wants {
    /// Nothing.
    Nothing,
    /// A file to write, `-` for standard output.
    File,
    /// A whole number, called by a word, from one to another.
    Number(&'static str, usize, usize),
    /// One of these words.
    Word(&'static [&'static str]),
}

impl Choice {
    /// Its shortest name with what it wants behind it.
    pub fn usage(&self) -> String {
        self.names[0].to_string() + &self.wants.usage()
    }

    /// All its names with what it wants behind them.
    pub fn all_names(&self) -> String {
        self.names.join(", ") + &self.wants.usage()
    }
}

impl Wants {
    /// What the usage shows behind a name.
    fn usage(&self) -> String {
        match self {
            Wants::Nothing => String::new(),
            Wants::File => " FILE".to_string(),
            Wants::Number(word, ..) => format!(" {}", word),
            Wants::Word(words) => format!(" {}", words.join("|")),
        }
    }
}

/// An option that wants nothing behind it.
const fn flag(names: &'static [&'static str], help: &'static str) -> Choice {
    Choice { names, wants: Wants::Nothing, help }
}

/// Says how a verb is called.
pub const HELP: Choice = flag(&["--help"], "says how it is called");

/// Says the version.
pub const VERSION: Choice = flag(&["--version"], "says the version");

/// Text for a person.
pub const TEXT: Choice = flag(&["--text"], "rows as text, which is the form without an option");

/// Braille for a person.
pub const BRAILLE: Choice = flag(&["--braille"], "rows as braille cells, a picture of the relief");

/// JSON for a program.
pub const JSON: Choice = flag(&["--json"], "JSON for programs");

/// A page.
pub const HTML: Choice = Choice {
    names: &["--html"],
    wants: Wants::File,
    help: "writes one page with all sheets, their rows as raised dots; - is standard output",
};

/// Pages for an embosser.
pub const BRF: Choice =
    Choice { names: &["--brf"], wants: Wants::File, help: "writes pages for an embosser; - is standard output" };

/// The columns that rows are cut to.
pub const COLUMNS: Choice = Choice {
    names: &["-w", "--columns"],
    wants: Wants::Number("COLUMNS", 10, 100_000),
    help: "cuts rows and remarks to so many columns; else to the terminal's width, and not at all in a file",
};

/// How many scripts are read at a time.
pub const JOBS: Choice =
    Choice { names: &["-j", "--jobs"], wants: Wants::Number("N", 1, 64), help: "reads N scripts at a time" };

/// Refused sheets before all others.
pub const REFUSED_FIRST: Choice = flag(&["--refused-first"], "puts refused sheets first, then those with a warning");

/// A warning counts as a refusal.
pub const STRICT: Choice = flag(&["--strict"], "a sheet with a warning counts as refused");

/// Nowdoc blocks are read as sheets.
pub const SHEET: Choice = flag(&["--sheet"], "reads nowdoc blocks as sheets, without the closing line's indentation");

/// Nowdoc blocks are read as by the lexer that was carried over.
pub const PORTED: Choice =
    flag(&["--ported"], "reads nowdoc blocks as tokens does without --sheet; no row, no cell, no warning");

/// What an octal escape over 377 is.
pub const OCTAL: Choice = Choice {
    names: &["--octal"],
    wants: Wants::Word(&["rust", "manual"]),
    help: "rust refuses an octal escape over 377; manual takes its low eight bits, as PHP does",
};

/// Numbers alone.
pub const NUMBERS: Choice = flag(&["--numbers"], "numbers alone, as the program rows prints them");

/// How many bytes are read at a time.
pub const PIECE: Choice = Choice {
    names: &["-p", "--piece"],
    wants: Wants::Number("PIECE", 1, usize::MAX),
    help: "reads PIECE bytes at a time; the output is the same for each",
};

/// Prints a record file.
pub const PRINT: Choice = flag(&["--print"], "prints a record file for a person, and writes nothing");
