//! A refusal as a person is told of it: the lines to mark, what is open or stands there, and what to do.

use puretakoi::{refusals, Frame, Refusal, Session, Span};

use crate::reading::mend::block_end;
use crate::reading::octal::by_the_manual;
use crate::reading::php::{is_blank, is_part_of_a_word, next_line, span_at};
use crate::reading::suspect::Suspect;
use crate::showing::shown::{pieces, shown};

/// A refusal and what is told of it.
#[derive(Debug)]
pub struct Fault {
    /// The refusal.
    pub refusal: Refusal,
    /// The line that it stands in; none where it is about the whole script.
    pub mark: Option<Mark>,
    /// A sentence on what stands there or is open.
    pub detail: Option<String>,
    /// The line where what is open began, if that is what is told.
    pub opening: Option<Mark>,
    /// The line of the string that may have a quote too many.
    pub suspect: Option<Mark>,
    /// Where to look first: at a quote too many, where what is open began, else at the refusal's place.
    pub place: Span,
    /// Whether it was met where the reading is a guess.
    pub is_guess: bool,
}

/// A line of the script and a place in it.
#[derive(Clone, Debug, PartialEq, Eq)]
pub struct Mark {
    /// The line's number.
    pub line: u32,
    /// Its bytes without the break.
    pub text: Vec<u8>,
    /// The place: so many bytes stand before it.
    pub at: usize,
}

/// What was open where a reading was refused.
struct Open {
    what: String,
    missing: String,
    span: Span,
    /// Where to look first.
    place: Span,
}

/// The line that should have closed a block: what is wrong with it in words, and where the next line starts.
pub struct Near {
    words: String,
    /// Where the next line starts.
    pub behind: usize,
}

impl Fault {
    /// What is told of a refusal, with the session as it is then and where its top frame opened. The string that
    /// may have a quote too many is told where one is open.
    pub fn new(refusal: Refusal, script: &[u8], session: &Session, opening: Span, suspect: Option<Suspect>) -> Fault {
        let open = open(script, session, opening, suspect);
        let mark = Mark::new(script, refusal.span);
        let mut fault = Fault {
            refusal,
            mark: None,
            detail: None,
            opening: None,
            suspect: None,
            place: refusal.span,
            is_guess: false,
        };
        match (refusal.number, open) {
            (refusals::UNEXPECTED_END_OF_FILE, Some(open)) => {
                let told = format!("The {} that opens at {} is not closed: {}.", open.what, open.span, open.missing);
                fault.detail = Some(told);
                fault.opening = Some(Mark::new(script, open.span));
                fault.suspect =
                    Some(open.place).filter(|place| *place != open.span).map(|place| Mark::new(script, place));
                fault.place = open.place;
            }
            (refusals::TOO_LARGE, _) => fault.detail = Some("Only its first 65,536 bytes were read.".to_string()),
            (_, open) => fault.detail = detail(refusal, script, session, open, &mark),
        }
        fault.mark = Some(mark).filter(|_| refusal.number != refusals::TOO_LARGE);
        fault
    }

    /// The refusal with its place, what it means and what to do, in one line.
    pub fn sentence(&self) -> String {
        format!("{}. {}", self.refusal, self.refusal.advice())
    }
}

impl Mark {
    /// The line of a place.
    pub fn new(script: &[u8], span: Span) -> Mark {
        let place = (span.position as usize).min(script.len());
        let (front, rest) = script.split_at(place);
        let start = front.iter().rposition(|byte| *byte == b'\n').map_or(0, |at| at + 1);
        let end = place + rest.iter().position(|byte| *byte == b'\n').unwrap_or(rest.len());
        let text = script[start..end].strip_suffix(b"\r").unwrap_or(&script[start..end]).to_vec();
        Mark { line: span.line, text, at: place - start }
    }

    /// What stands before the place.
    fn front(&self) -> &[u8] {
        self.text.get(..self.at).unwrap_or(&self.text)
    }
}

/// What is told of the refusals that stand at a byte of the script.
fn detail(refusal: Refusal, script: &[u8], session: &Session, open: Option<Open>, mark: &Mark) -> Option<String> {
    match refusal.number {
        refusals::INVALID_UNICODE_ESCAPE | refusals::INVALID_OCTAL_ESCAPE => {
            let place = open.map(|open| format!("It stands in the {} that opens at {}.", open.what, open.span));
            let told: Vec<String> = place.into_iter().chain(by_the_manual(script, refusal)).collect();
            Some(told.join(" ")).filter(|told| !told.is_empty())
        }
        refusals::INVALID_DOC_INDENTATION => {
            Some(format!("Before {} stand {}.", shown(label(session, script)?), blanks(mark.front())))
        }
        refusals::STRAY_INDENTATION => {
            let (line, owed) = closing_line(script, session)?;
            let there = character_in_words(script.get(refusal.span.position as usize..)?);
            let has = match blanks(mark.front()) {
                none if none.is_empty() => format!("starts with {}", there),
                front => format!("starts with {}, then {}", front, there),
            };
            Some(format!("Each row owes the {} of the closing line, line {}; this row {}.", blanks(owed), line, has))
        }
        _ => None,
    }
}

/// What is open: a string or a comment at the cursor, or the top frame.
fn open(script: &[u8], session: &Session, span: Span, suspect: Option<Suspect>) -> Option<Open> {
    let name = || shown(label(session, script).unwrap_or_default());
    let quoted = |what: &str, span| (what.to_string(), quote_missing(script, suspect), span);
    let (what, missing, span) = match session.top()? {
        Frame::Scripting => match script.get(session.position() as usize)? {
            b'\'' => quoted("single-quoted string", session.span()),
            b'"' => quoted("double-quoted string", session.span()),
            b'/' => ("remark".to_string(), comment_missing(script, session), session.span()),
            _ => return None,
        },
        Frame::DoubleQuote => quoted("double-quoted string", span),
        Frame::ShellExec => ("command".to_string(), "the backtick at its end is missing".to_string(), span),
        Frame::Heredoc(_) => (format!("heredoc block {}", name()), closer_missing(script, session), span),
        Frame::Nowdoc(_) => (format!("nowdoc block {}", name()), closer_missing(script, session), span),
        Frame::VarOffset => ("bracket".to_string(), "the ] is missing".to_string(), span),
        _ => return None,
    };
    let is_string = what.ends_with("string");
    let place = suspect.filter(|_| is_string).map_or(span, |suspect| suspect.end);
    Some(Open { what, missing, span, place })
}

/// What an open string wants, in words.
fn quote_missing(script: &[u8], suspect: Option<Suspect>) -> String {
    let other = "the quote at its end is missing, or a quote before it is one too many";
    match suspect {
        Some(Suspect { opening, end }) => {
            let behind = character_in_words(script.get(end.position as usize..).unwrap_or_default());
            format!("{}: {} stands right behind the string from {} to {}", other, behind, opening, end)
        }
        None => other.to_string(),
    }
}

/// What an open block wants, in words.
fn closer_missing(script: &[u8], session: &Session) -> String {
    if let Some(closer) = block_end(script, session) {
        return format!("PHP closes it at {}, behind a CR alone", span_at(script, closer.label));
    }
    let near = near_closer(script, session).map_or_else(String::new, |near| format!(", but {}", near.words));
    format!("no line behind it starts with its label as a word of its own{}", near)
}

/// What the comment at the cursor wants, in words.
fn comment_missing(script: &[u8], session: &Session) -> String {
    let seems_closed = script.get(session.position() as usize..).map_or(false, |rest| rest.starts_with(b"/*/"));
    let near = if seems_closed { "; the / right behind /* closes nothing" } else { "" };
    format!("write */ where it ends{}", near)
}

/// The label of the text block that is being read.
pub fn label<'a>(session: &Session, script: &'a [u8]) -> Option<&'a [u8]> {
    match session.top()? {
        Frame::Heredoc(label) | Frame::Nowdoc(label) => label.bytes(script),
        _ => None,
    }
}

/// The lines of the block that is being read and of all behind it: number, blanks in front, and what follows them.
fn lines<'a>(script: &'a [u8], session: &Session) -> impl Iterator<Item = (u32, &'a [u8], &'a [u8])> {
    let body = script.get(session.position() as usize..).unwrap_or_default();
    (session.line()..).zip(body.split(|byte| *byte == b'\n')).map(|(number, line)| {
        let (blanks, rest) = line.split_at(line.iter().take_while(|byte| is_blank(**byte)).count());
        (number, blanks, rest)
    })
}

/// The number and the blanks of the line that closes the block that is being read.
fn closing_line<'a>(script: &'a [u8], session: &Session) -> Option<(u32, &'a [u8])> {
    let label = label(session, script)?;
    let closer = lines(script, session).find(|(_number, _blanks, rest)| closes(rest, label));
    closer.map(|(number, blanks, _rest)| (number, blanks))
}

/// The line that would close an open block if its label were written, ended or placed rightly. Of the lines in
/// which a word goes on behind the label one that ends as closing lines do comes first, for others may be captions.
pub fn near_closer(script: &[u8], session: &Session) -> Option<Near> {
    let label = label(session, script).filter(|label| !label.is_empty())?;
    let small = label.to_ascii_lowercase();
    let first = |is_near: &dyn Fn(&[u8]) -> bool| lines(script, session).find(|(_number, _blanks, rest)| is_near(rest));
    let near = |number: u32, words: String| Some(Near { words, behind: line_end(script, session, number) });
    if let Some((number, _blanks, _rest)) = first(&|rest| closes(&rest.to_ascii_lowercase(), &small)) {
        return near(number, format!("line {} has it in other letter case", number));
    }
    let is_longer = |rest: &[u8]| rest.starts_with(label);
    let longer = first(&|rest| is_longer(rest) && ends_as_a_closing_line(rest)).or_else(|| first(&is_longer));
    if let Some((number, _blanks, rest)) = longer {
        return near(number, format!("in line {} {} the label", number, what_follows(&rest[label.len()..])));
    }
    let (number, _blanks, _rest) = first(&|rest| (1..rest.len()).any(|at| closes(&rest[at..], label)))?;
    near(number, format!("line {} has it behind other characters", number))
}

/// The start of the line behind a line, which is the cursor's or one behind it.
fn line_end(script: &[u8], session: &Session, number: u32) -> usize {
    (session.line()..=number).fold(session.position() as usize, |at, _line| next_line(script, at))
}

/// Whether a line closes a nowdoc block by what follows its blanks: the label, and then no byte of an identifier.
fn closes(rest: &[u8], label: &[u8]) -> bool {
    rest.strip_prefix(label).map_or(false, |behind| !behind.first().map_or(false, |byte| is_part_of_a_word(*byte)))
}

/// Whether `;`, `,` or `)` follows the word that a line starts with.
fn ends_as_a_closing_line(rest: &[u8]) -> bool {
    rest.iter().find(|byte| !is_part_of_a_word(**byte)).map_or(false, |byte| b";,)".contains(byte))
}

/// What the part of a word behind a label begins with, in words.
fn what_follows(bytes: &[u8]) -> String {
    match bytes.first() {
        Some(byte) if byte.is_ascii_alphabetic() => "letters follow".to_string(),
        Some(byte) if byte.is_ascii_digit() => "digits follow".to_string(),
        _ => format!("{} follows", character_in_words(bytes)),
    }
}

/// Blanks in words: how many of which, in their order; nothing for none.
fn blanks(bytes: &[u8]) -> String {
    let mut runs: Vec<(u8, usize)> = Vec::new();
    for byte in bytes {
        match runs.last_mut() {
            Some((kind, count)) if kind == byte => *count += 1,
            _ => runs.push((*byte, 1)),
        }
    }
    let words = |(kind, count): &(u8, usize)| counted(*count, if *kind == b'\t' { "tab" } else { "space" });
    let runs: Vec<String> = runs.iter().map(words).collect();
    match runs.split_last() {
        Some((last, front)) if !front.is_empty() => format!("{} and {}", front.join(", "), last),
        _ => runs.concat(),
    }
}

/// The character that some bytes begin with, in words.
pub fn character_in_words(bytes: &[u8]) -> String {
    match bytes.first() {
        Some(b'\t') => "a tab".to_string(),
        Some(b' ') => "a space".to_string(),
        Some(b'\n' | b'\r') => "a line break".to_string(),
        Some(b'"') => "a double quote".to_string(),
        _ => format!("\"{}\"", pieces(bytes).next().map_or_else(String::new, |piece| piece.text)),
    }
}

/// A number of things, with the thing's name.
pub fn counted(count: usize, thing: &str) -> String {
    format!("{} {}{}", count, thing, if count == 1 { "" } else { "s" })
}
