//! A warning: the script was read, but PHP may read it otherwise, or nothing of use was found in it.

use puretakoi::Span;

use crate::reading::fault::Mark;

/// Which warning it is.
#[derive(Clone, Copy, Debug, PartialEq, Eq, Hash, PartialOrd, Ord)]
pub enum Kind {
    /// A `<<<` that opens no block.
    OpensNothing,
    /// A heredoc that PHP closes in another line.
    ClosesElsewhere,
    /// A remark that PHP ends at a CR.
    RemarkGoesOn,
    /// A CR without an LF, which PHP takes for a break.
    LoneReturn,
    /// An open tag that PHP takes for text.
    OpenTag,
    /// `__halt_compiler`, behind which PHP reads nothing.
    HaltCompiler,
    /// A backslash that PHP takes for an escape.
    Escape,
    /// A byte in the brackets behind a variable of a string, which PHP refuses.
    Offset,
    /// A text that is open where the script ends, and no refusal tells of it.
    StillOpen,
    /// The script is in UTF-16.
    Utf16,
    /// All lines end in a CR.
    CrLines,
    /// No open tag is in the script.
    NoOpenTag,
    /// The script has no bytes.
    Empty,
    /// No block of rows is in the script.
    NoBlock,
}

impl Kind {
    /// Whether PHP reads something else there; the others say that nothing of use was found.
    pub fn is_of_php(self) -> bool {
        !matches!(self, Kind::Utf16 | Kind::NoOpenTag | Kind::Empty | Kind::NoBlock)
    }

    /// Its name, for programs.
    pub fn name(self) -> &'static str {
        match self {
            Kind::OpensNothing => "opens-nothing",
            Kind::ClosesElsewhere => "closes-elsewhere",
            Kind::RemarkGoesOn => "remark-goes-on",
            Kind::LoneReturn => "lone-return",
            Kind::OpenTag => "open-tag",
            Kind::HaltCompiler => "halt-compiler",
            Kind::Escape => "escape",
            Kind::Offset => "offset",
            Kind::StillOpen => "still-open",
            Kind::Utf16 => "utf-16",
            Kind::CrLines => "cr-lines",
            Kind::NoOpenTag => "no-open-tag",
            Kind::Empty => "empty",
            Kind::NoBlock => "no-block",
        }
    }
}

/// A warning and its place.
#[derive(Clone, Debug, PartialEq, Eq)]
pub struct Warning {
    /// Which it is.
    pub kind: Kind,
    /// Where it stands; the script's start where it is about the whole script.
    pub span: Span,
    /// The line that it stands in; none where it is about the whole script.
    pub mark: Option<Mark>,
    /// What is there: a sentence without its full stop, which may begin with a small letter or a sign.
    pub told: String,
    /// How the sheet is read on there: a whole sentence, or nothing.
    pub read_on: String,
    /// What to do: whole sentences.
    pub advice: String,
}

impl Warning {
    /// A warning on a whole script.
    pub fn of_all(kind: Kind, told: &str, advice: &str) -> Warning {
        let (told, advice) = (told.to_string(), advice.to_string());
        Warning { kind, span: Span::START, mark: None, told, read_on: String::new(), advice }
    }

    /// It with a sentence on how the sheet is read on.
    pub fn with_read_on(self, read_on: &str) -> Warning {
        Warning { read_on: read_on.to_string(), ..self }
    }

    /// What is there, how the sheet is read on and what to do, in one line.
    pub fn sentence(&self) -> String {
        format!("{}. {}", self.told, self.whole_advice())
    }

    /// What is there and what to do, in one line, for those who do not read on so.
    pub fn short_sentence(&self) -> String {
        format!("{}. {}", self.told, self.advice)
    }

    /// How the sheet is read on and what to do.
    pub fn whole_advice(&self) -> String {
        match self.read_on.is_empty() {
            true => self.advice.clone(),
            false => format!("{} {}", self.read_on, self.advice),
        }
    }
}
