//! A call of the host's boundary: its function, numbers and lent slices. As a line, eight words:
//! `FUNCTION ARGUMENTS END SESSION LIST POOL ANSWER SOURCE`.

use crate::case::number;
use crate::hex;

/// How many numbers a session, an answer, a record and a slot have, and where a session's slots begin. An answer may have a place
/// more, for how many steps were done.
pub const SESSION: usize = 199;
pub const ANSWER: usize = 5;
pub const RECORD: usize = 8;
pub const SLOT: usize = 3;
pub const SLOTS: usize = 7;

/// Where a record has its position, how many bytes its value has, and where the step or reading ended that wrote it.
pub const RECORD_POSITION: usize = 4;
pub const RECORD_LENGTH: usize = 6;
pub const RECORD_END: usize = 7;

/// Where a session has its first numbers.
pub const POSITION: usize = 0;
pub const LINE: usize = 1;
pub const COLUMN: usize = 2;
pub const DEPTH: usize = 3;
pub const TOKENS: usize = 4;
pub const BYTES: usize = 5;
pub const CHOICES: usize = 6;

/// The flags in a session's choices: nowdoc blocks are read as sheets; octal escapes are read as the manual has them.
pub const SHEETS: usize = 1;
pub const OCTAL_MANUAL: usize = 2;

/// The functions that take a session, by the names they have in call lines.
#[derive(Clone, Copy, Debug, PartialEq, Eq)]
pub enum Function {
    Fresh,
    Step,
    Walk,
    ReadNumber,
    ReadSingle,
    ReadDouble,
    Skip,
    Push,
    Pop,
}

/// Every function with its name and how many arguments it has, in the order of `Function`.
pub const FUNCTIONS: [(&str, Function, usize); 9] = [
    ("fresh", Function::Fresh, 1),
    ("step", Function::Step, 0),
    ("walk", Function::Walk, 1),
    ("read_number", Function::ReadNumber, 0),
    ("read_single", Function::ReadSingle, 0),
    ("read_double", Function::ReadDouble, 0),
    ("skip", Function::Skip, 1),
    ("push", Function::Push, 3),
    ("pop", Function::Pop, 0),
];

impl Function {
    pub fn name(self) -> &'static str {
        FUNCTIONS[self as usize].0
    }

    /// Whether list and pool are lent to it, and whether the end is announced to it.
    pub fn has_tables(self) -> bool {
        matches!(self, Function::Step | Function::Walk) || self.is_reading()
    }

    /// Whether it reads one literal at the cursor of the script.
    pub fn is_reading(self) -> bool {
        matches!(self, Function::ReadNumber | Function::ReadSingle | Function::ReadDouble)
    }

    /// Whether source and answer are lent to it.
    pub fn has_answer(self) -> bool {
        self != Function::Fresh
    }
}

/// A call. What its function does not take is 0 or empty.
#[derive(Clone, Debug, PartialEq, Eq)]
pub struct Call {
    pub function: Function,
    /// The choices of `fresh`, the most steps of `walk`, the count of `skip`, the frame, label start and label length of `push`.
    pub arguments: Vec<usize>,
    /// The end is announced where this is not 0.
    pub end: u32,
    pub session: Vec<u32>,
    /// How long list, pool and answer are; before the call each place holds its pattern.
    pub list: usize,
    pub pool: usize,
    pub answer: usize,
    pub source: Vec<u8>,
}

/// What a place of a lent list, answer or pool holds before a call.
pub fn list_pattern(place: usize) -> u32 {
    (place as u32).wrapping_mul(0x9e37_79b1) ^ 0xa5c3_96d2
}

pub fn answer_pattern(place: usize) -> u32 {
    list_pattern(place + 1000)
}

pub fn pool_pattern(place: usize) -> u8 {
    (list_pattern(place) >> 11) as u8
}

impl Call {
    /// The call that a line says, or in plain words what is wrong with the line.
    pub fn read(line: &[u8]) -> Result<Call, String> {
        let words: Vec<&[u8]> = line.split(|byte| *byte == b' ').collect();
        if words.len() != 8 {
            return Err("a call is eight words: FUNCTION ARGUMENTS END SESSION LIST POOL ANSWER SOURCE".to_string());
        }
        let (name, function, count) = *FUNCTIONS
            .iter()
            .find(|(name, _, _)| name.as_bytes() == words[0])
            .ok_or_else(|| format!("there is no function `{}`", words[0].escape_ascii()))?;
        let arguments = numbers("argument", words[1])?;
        if arguments.len() != count {
            return Err(format!("{} takes {} arguments", name, count));
        }
        if function != Function::Skip {
            arguments.iter().try_for_each(|argument| as_small("argument", *argument).map(drop))?;
        }
        let mut source = Vec::new();
        hex::read_repeats(words[7], &mut source).map_err(|wrong| format!("the source {}", wrong))?;
        Ok(Call {
            function,
            arguments,
            end: small("end", words[2])?,
            session: read_session(words[3])?,
            list: number("list", words[4])?,
            pool: number("pool", words[5])?,
            answer: number("answer", words[6])?,
            source,
        })
    }

    /// Appends the call as a line, without its line break.
    pub fn write(&self, out: &mut Vec<u8>) {
        out.extend_from_slice(format!("{} ", self.function.name()).as_bytes());
        write_numbers(&self.arguments, out);
        out.extend_from_slice(format!(" {} ", self.end).as_bytes());
        write_session(&self.session, out);
        out.extend_from_slice(format!(" {} {} {} ", self.list, self.pool, self.answer).as_bytes());
        hex::write_repeats(&self.source, out);
    }

    /// Whether the answer has a place for how many steps, or readings, were done.
    pub fn tells_steps(&self) -> bool {
        self.function.has_tables() && self.answer > ANSWER
    }

    /// A number of the session, 0 where it is too short.
    pub fn number(&self, place: usize) -> usize {
        self.session.get(place).copied().unwrap_or(0) as usize
    }
}

/// Numbers with commas between them; `-` stands for none.
pub(crate) fn numbers(what: &str, word: &[u8]) -> Result<Vec<usize>, String> {
    if word == b"-" {
        return Ok(Vec::new());
    }
    word.split(|byte| *byte == b',').map(|digits| number(what, digits)).collect()
}

pub(crate) fn write_numbers<T: ToString>(numbers: &[T], out: &mut Vec<u8>) {
    let words: Vec<String> = numbers.iter().map(|number| number.to_string()).collect();
    out.extend_from_slice(if words.is_empty() { "-".to_string() } else { words.join(",") }.as_bytes());
}

/// A number of 32 bits.
pub(crate) fn small(what: &str, word: &[u8]) -> Result<u32, String> {
    as_small(what, number(what, word)?)
}

pub(crate) fn as_small(what: &str, number: usize) -> Result<u32, String> {
    u32::try_from(number).map_err(|_| format!("the {} {} has more than 32 bits", what, number))
}

/// `LENGTH:NUMBERS`, where zeros at the end are left out.
pub(crate) fn read_session(word: &[u8]) -> Result<Vec<u32>, String> {
    let mut halves = word.splitn(2, |byte| *byte == b':');
    let length = number("session's length", halves.next().unwrap_or_default())?;
    let given = numbers("session's number", halves.next().ok_or("a session is LENGTH:NUMBERS")?)?;
    if length > 1_000_000 || given.len() > length {
        return Err(format!("a session of {} numbers can't be, or has {}", length, given.len()));
    }
    let mut session = given.iter().map(|n| as_small("session's number", *n)).collect::<Result<Vec<u32>, String>>()?;
    session.resize(length, 0);
    Ok(session)
}

pub(crate) fn write_session(session: &[u32], out: &mut Vec<u8>) {
    let last = session.iter().rposition(|number| *number != 0).map_or(0, |place| place + 1);
    out.extend_from_slice(format!("{}:", session.len()).as_bytes());
    write_numbers(&session[..last], out);
}
