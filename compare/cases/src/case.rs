//! A case: one routine of the lexer, at one position of one source. As a line: `ROUTINE POSITION LABEL SOURCE`.

use crate::hex;

/// The routines that can be run, by the names they have in case lines.
#[derive(Clone, Copy, Debug, PartialEq, Eq)]
pub enum Routine {
    Initial,
    DoubleQuote,
    ShellExec,
    Heredoc,
    Nowdoc,
    LookingForVarname,
    LookingForProperty,
    Single,
    Double,
    Number,
    PeekIdentifier,
    Skip,
    /// The Rust's `scripting`, asked where a comment begins.
    Scripting,
}

/// Every routine with its name in a case line, in the order of `Routine`.
pub const ROUTINES: [(&str, Routine); 13] = [
    ("initial", Routine::Initial),
    ("double_quote", Routine::DoubleQuote),
    ("shell_exec", Routine::ShellExec),
    ("heredoc", Routine::Heredoc),
    ("nowdoc", Routine::Nowdoc),
    ("looking_for_varname", Routine::LookingForVarname),
    ("looking_for_property", Routine::LookingForProperty),
    ("single", Routine::Single),
    ("double", Routine::Double),
    ("number", Routine::Number),
    ("peek_identifier", Routine::PeekIdentifier),
    ("skip", Routine::Skip),
    ("scripting", Routine::Scripting),
];

/// The cursor may start, and skip, this many bytes past the source's end and no further.
pub const FURTHEST_PAST_END: usize = 65_536;

/// What a routine is run on.
#[derive(Clone, Debug, PartialEq, Eq)]
pub struct Case {
    pub routine: Routine,
    pub position: usize,
    /// The label of `heredoc` and `nowdoc`; the other routines look at none.
    pub label: Vec<u8>,
    /// How many bytes `skip` passes.
    pub count: usize,
    pub source: Vec<u8>,
}

impl Default for Case {
    fn default() -> Self {
        Case { routine: Routine::Initial, position: 0, label: Vec::new(), count: 0, source: Vec::new() }
    }
}

impl Case {
    /// Replaces the case by what the line says, or tells in plain words what is wrong with the line.
    pub fn read(&mut self, line: &[u8]) -> Result<(), String> {
        let mut words = line.split(|byte| *byte == b' ');
        let (routine, position, label, source) =
            match (words.next(), words.next(), words.next(), words.next(), words.next()) {
                (Some(routine), Some(position), Some(label), Some(source), None) => (routine, position, label, source),
                _ => return Err("a case is four words: ROUTINE POSITION LABEL SOURCE".to_string()),
            };
        self.routine = routine_named(routine)?;
        self.position = number("position", position)?;
        self.label.clear();
        self.count = 0;
        if self.routine == Routine::Skip {
            self.count = number("count", label)?;
        } else {
            hex::read(label, &mut self.label).map_err(|wrong| format!("the label {}", wrong))?;
        }
        hex::read(source, &mut self.source).map_err(|wrong| format!("the source {}", wrong))?;
        self.check_reach()
    }

    fn check_reach(&self) -> Result<(), String> {
        let furthest = self.source.len() + FURTHEST_PAST_END;
        if self.position > furthest || self.count > furthest - self.position {
            return Err(format!("the case goes more than {} bytes past the end", FURTHEST_PAST_END));
        }
        Ok(())
    }

    /// Appends the case as a line, without its line break.
    pub fn write(&self, out: &mut Vec<u8>) {
        out.extend_from_slice(self.routine.name().as_bytes());
        out.extend_from_slice(format!(" {} ", self.position).as_bytes());
        if self.routine == Routine::Skip {
            out.extend_from_slice(self.count.to_string().as_bytes());
        } else {
            hex::write(&self.label, out);
        }
        out.push(b' ');
        hex::write(&self.source, out);
    }
}

impl Routine {
    pub fn name(self) -> &'static str {
        ROUTINES[self as usize].0
    }
}

fn routine_named(word: &[u8]) -> Result<Routine, String> {
    for (name, routine) in ROUTINES {
        if name.as_bytes() == word {
            return Ok(routine);
        }
    }
    Err(format!("there is no routine `{}`", word.escape_ascii()))
}

pub(crate) fn number(what: &str, word: &[u8]) -> Result<usize, String> {
    hex::decimal(word).ok_or_else(|| format!("the {} `{}` is not a number, or too large", what, word.escape_ascii()))
}
