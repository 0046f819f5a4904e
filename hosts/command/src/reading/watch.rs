//! Looks at each step for what PHP reads otherwise: a warning, and how to go on as PHP does.

use std::ops::Range;

use puretakoi::limits::MOST_LABEL;
use puretakoi::{kinds, Frame, Label, Record};

use crate::reading::fault::{character_in_words, counted, Mark};
use crate::reading::php::{
    block_closer, closer, closer_in_line, halt_end, is_escaped, is_offset, is_part_of_a_word, lone_return, meant,
    odd_tag, span_at, Closer, Form, Meant,
};
use crate::reading::reader::{Reader, Step};
use crate::reading::warning::{Kind, Warning};
use crate::showing::shown::{cut, shown};

/// How many columns of an opening are told.
const MOST_SHOWN: usize = 80;

/// A warning, and how to go on.
#[derive(Debug)]
pub struct Finding {
    /// The warning.
    pub warning: Warning,
    /// How to go on.
    pub mend: Mend,
    /// The lines that the library takes for a heredoc's text and PHP does not.
    pub hidden: Option<Range<u32>>,
}

impl Finding {
    fn new(warning: Warning, mend: Mend) -> Finding {
        Finding { warning, mend, hidden: None }
    }
}

/// How to go on behind a step that PHP reads otherwise.
#[derive(Debug, PartialEq, Eq)]
pub enum Mend {
    /// The step stands.
    Keep,
    /// Read it again, with a plain byte at a place.
    Mask(usize),
    /// Take it back and go on from a place, with a frame in the top one's place.
    GoOn(usize, Frame),
    /// Take it back, end a remark at a place and go on from there.
    CutRemark(usize),
    /// Take it back, list a heredoc with this label and go on behind the label that closes it.
    CloseHeredoc(Label, Closer),
    /// Take it back and leave the top frame.
    Leave,
    /// Read no further.
    Stop,
}

/// What PHP reads otherwise in a step of a script; nothing where it reads the same.
pub fn look(script: &[u8], step: &Step, reader: &Reader) -> Option<Finding> {
    match step.before.top()? {
        Frame::Initial => look_at_tag(script, step),
        Frame::Scripting => look_at_script(script, step, reader),
        Frame::Heredoc(label) => look_at_heredoc(script, step, label).or_else(|| look_at_brace(script, step)),
        Frame::Nowdoc(label) => look_at_nowdoc(script, step, label),
        Frame::ShellExec => look_at_command(script, step),
        Frame::DoubleQuote => look_at_brace(script, step),
        Frame::VarOffset => look_at_offset(script, step),
        _ => None,
    }
}

/// A warning at a position.
pub fn warning(script: &[u8], kind: Kind, at: usize, told: String, advice: &str) -> Warning {
    let span = span_at(script, at);
    let mark = Some(Mark::new(script, span));
    Warning { kind, span, mark, told, read_on: String::new(), advice: advice.to_string() }
}

/// An open tag that PHP takes for text. That of XML is text in every setting that reads the script at all.
fn look_at_tag(script: &[u8], step: &Step) -> Option<Finding> {
    let tag =
        step.records.last().filter(|record| matches!(record.kind, kinds::OPEN_TAG_FULL | kinds::OPEN_TAG_SHORT))?;
    let at = step.after.position() as usize - tag.len as usize;
    let found = odd_tag(script, at)?;
    if found.len() > 2 {
        let told = format!("PHP takes {} for text, for no blank stands behind it", shown(found));
        return keep(warning(script, Kind::OpenTag, at, told, "Write a space or a line break behind it."));
    }
    let is_xml = script[at..].get(2..5).map_or(false, |name| name.eq_ignore_ascii_case(b"xml"));
    let told = "PHP takes <? for an open tag only where the setting short_open_tag is on".to_string();
    if !is_xml {
        return keep(warning(script, Kind::OpenTag, at, told, "Write <?php."));
    }
    let warning = warning(script, Kind::OpenTag, at, told, "Print it from a string.");
    Some(Finding::new(warning.with_read_on("It is read as text here."), Mend::Mask(at)))
}

fn look_at_script(script: &[u8], step: &Step, reader: &Reader) -> Option<Finding> {
    let at = step.before.position() as usize;
    let rest = script.get(at..)?;
    match step.after.top()? {
        Frame::Heredoc(label) if rest.starts_with(b"<<<") => look_at_first_line(script, step, label, reader),
        Frame::Scripting if rest.starts_with(b"<<<") => Some(opens_nothing(script, at)),
        _ if step.records.iter().any(|record| record.kind == kinds::COMMENT) => look_at_remark(script, step),
        _ => look_at_halt(script, step),
    }
}

/// A heredoc that its first line closes, which the library does not see.
fn look_at_first_line(script: &[u8], step: &Step, label: Label, reader: &Reader) -> Option<Finding> {
    let closer = closer_in_line(script, step.after.position() as usize, label.bytes(script)?)?;
    let line = span_at(script, closer.end).line;
    let last = reader.closing_line();
    let library = last.map_or_else(|| "finds no closing line".to_string(), |last| format!("goes on to line {}", last));
    let told = format!("PHP closes this heredoc at line {}; the library's reading {}", line, library);
    let advice = "Write a line between, or an empty string.";
    let warning = warning(script, Kind::ClosesElsewhere, step.before.position() as usize, told, advice);
    let warning = warning.with_read_on("It is closed as in PHP here.");
    let hidden = Some(line..last.unwrap_or(u32::MAX));
    Some(Finding { warning, mend: Mend::CloseHeredoc(label, closer), hidden })
}

/// A comment of a line that holds a CR without an LF, at which PHP ends it.
fn look_at_remark(script: &[u8], step: &Step) -> Option<Finding> {
    let (from, to) = (step.before.position() as usize, step.after.position() as usize);
    let at = lone_return(script, from..to).filter(|_| !script[from..].starts_with(b"/*"))?;
    let told = "PHP ends this remark at a CR; the library goes on to the line's end".to_string();
    let warning = warning(script, Kind::RemarkGoesOn, from, told, "End the line in LF or CRLF.");
    Some(Finding::new(warning.with_read_on("It is ended as in PHP here."), Mend::CutRemark(at)))
}

fn look_at_halt(script: &[u8], step: &Step) -> Option<Finding> {
    let at = step.before.position() as usize;
    halt_end(script, at)?;
    let told = "PHP reads nothing behind __halt_compiler".to_string();
    let advice = "Take it away, or move it, if blocks stand behind it.";
    let warning = warning(script, Kind::HaltCompiler, at, told, advice);
    Some(Finding::new(warning.with_read_on("What follows is not read here either."), Mend::Stop))
}

/// A `<<<` that the library passes.
fn opens_nothing(script: &[u8], at: usize) -> Finding {
    let line_end = script[at..].iter().position(|byte| b"\r\n".contains(byte)).map_or(script.len(), |end| at + end);
    let there = cut(&script[at..line_end], Some(MOST_SHOWN));
    match meant(script, at) {
        Some(meant) => {
            let told = format!("{} opens no block{}", there, what_php_does(&meant));
            let advice = meant.forms.iter().map(|form| what_to_write(*form)).collect::<Vec<_>>().join(" ");
            let mend = mend_of(script, &meant);
            let warning = warning(script, Kind::OpensNothing, at, told, &advice);
            Finding::new(warning.with_read_on(&how_it_is_read(script, &mend)), mend)
        }
        None => {
            let told = format!("{} opens no block", there);
            let advice = "If one is meant, write <<<'LABEL' and end the line there.";
            // A longer run of < is told once.
            let run = script[at..].iter().take_while(|byte| **byte == b'<').count();
            let mend = if run > 3 { Mend::GoOn(at + run, Frame::Scripting) } else { Mend::Keep };
            Finding::new(warning(script, Kind::OpensNothing, at, told, advice), mend)
        }
    }
}

fn what_php_does(meant: &Meant) -> &'static str {
    match (meant.forms.contains(&Form::BlanksBehind), meant.is_nowdoc) {
        (true, _) => "; PHP refuses it",
        (false, true) => "; PHP opens a nowdoc block",
        (false, false) => "; PHP opens a heredoc",
    }
}

fn what_to_write(form: Form) -> &'static str {
    match form {
        Form::BlanksBefore => "Take away the blanks before the label.",
        Form::BlanksBehind => "Take away the blanks behind the label.",
        Form::DoubleQuotes => "Write the label without quotes, or in single quotes for a block of rows.",
        Form::LongLabel => "Write a label of at most 64 bytes.",
        Form::Return => "End the line in LF or CRLF, not in a CR alone.",
    }
}

/// A block that is meant is read as one. Where the library can't, it is passed: one whose label is too long up to
/// its closing line, a heredoc that its first line closes up to there.
fn mend_of(script: &[u8], meant: &Meant) -> Mend {
    let label = Label { start: meant.label.start as u32, len: meant.label.len() as u32 };
    let name = &script[meant.label.clone()];
    let passed = match (meant.forms.contains(&Form::LongLabel), meant.is_nowdoc) {
        (true, _) => block_closer(script, meant.body, name),
        (false, true) => return Mend::GoOn(meant.body, Frame::Nowdoc(label)),
        (false, false) => closer_in_line(script, meant.body, name),
    };
    match passed {
        Some(closer) if meant.is_nowdoc => Mend::GoOn(closer.end, Frame::Scripting),
        Some(closer) => Mend::CloseHeredoc(label, closer),
        None if name.len() > MOST_LABEL => Mend::Keep,
        None => Mend::GoOn(meant.body, Frame::Heredoc(label)),
    }
}

/// How a block is read that is meant.
fn how_it_is_read(script: &[u8], mend: &Mend) -> String {
    match mend {
        Mend::GoOn(at, Frame::Scripting) => format!("It is passed here, up to line {}.", span_at(script, *at).line),
        Mend::GoOn(..) | Mend::CloseHeredoc(..) => "It is read as a block here.".to_string(),
        _ => String::new(),
    }
}

/// A heredoc's text that PHP closes elsewhere: behind a CR alone, or not where letters follow the label.
fn look_at_heredoc(script: &[u8], step: &Step, label: Label) -> Option<Finding> {
    let name = label.bytes(script)?;
    let (from, to) = (step.before.position() as usize, step.after.position() as usize);
    let is_closed = step.after.top() == Some(Frame::Scripting) && step.after.depth() == step.before.depth();
    if let Some(there) = closer(script, from..to, name).filter(|there| there.end < to || !is_closed) {
        let told = format!("PHP closes this heredoc at {}, behind a CR alone", span_at(script, there.label));
        let warning = warning(script, Kind::ClosesElsewhere, there.label, told, "End the line before in LF or CRLF.");
        let warning = warning.with_read_on("It is closed as in PHP here.");
        return Some(Finding::new(warning, Mend::CloseHeredoc(label, there)));
    }
    let goes_on = is_closed && script.get(to).map_or(false, |byte| is_part_of_a_word(*byte));
    let at = to.checked_sub(name.len()).filter(|_| goes_on)?;
    let told = format!("the library closes the heredoc here; PHP does not, for a word goes on behind {}", shown(name));
    let advice = "Choose a label that no line of the text begins with.";
    let warning = warning(script, Kind::ClosesElsewhere, at, told, advice);
    Some(Finding::new(warning.with_read_on("It is read on as in PHP here."), Mend::Mask(at)))
}

/// Rows with a CR that no LF follows, which PHP takes for a break.
fn look_at_nowdoc(script: &[u8], step: &Step, label: Label) -> Option<Finding> {
    let (from, to) = (step.before.position() as usize, step.after.position() as usize);
    let at = lone_return(script, from..to)?;
    let count = (from..to).filter(|at| lone_return(script, *at..at + 1).is_some()).count();
    let there = closer(script, from..to, label.bytes(script)?).filter(|there| there.end < to);
    let told = match there {
        Some(there) => format!("PHP closes this block at {}, behind a CR alone", span_at(script, there.label)),
        None => format!("in this block {} without an LF; PHP takes it for a line break", stand(count)),
    };
    let advice = "End the lines in LF or CRLF.";
    keep(warning(script, Kind::LoneReturn, at, told, advice))
}

fn stand(count: usize) -> String {
    format!("{} {}", if count == 1 { "stands" } else { "stand" }, counted(count, "CR"))
}

/// A command in which a backslash protects what the library takes for its end or for a variable.
fn look_at_command(script: &[u8], step: &Step) -> Option<Finding> {
    let last = step.records.last()?;
    let at = interpolation(step, last)?;
    if !is_escaped(script, at) {
        return None;
    }
    let told = match last.kind {
        kinds::BACKTICK => {
            "the library ends the command here; PHP does not, for a backslash stands before the backtick"
        }
        _ => "the library reads a variable here; PHP does not, for a backslash stands before it",
    };
    Some(escape(script, at, told))
}

/// A brace that PHP takes for text, for a backslash stands before it.
fn look_at_brace(script: &[u8], step: &Step) -> Option<Finding> {
    let last = step.records.last().filter(|record| record.kind == kinds::LEFT_BRACE)?;
    let at = interpolation(step, last).filter(|at| is_escaped(script, *at))?;
    Some(escape(
        script,
        at,
        "the library reads {$ here; PHP takes the brace for text, for a backslash stands before it",
    ))
}

/// A byte that the library passes in the brackets behind a variable. PHP refuses it, and goes on with the text.
fn look_at_offset(script: &[u8], step: &Step) -> Option<Finding> {
    let at = step.before.position() as usize;
    let is_bracket = step.opening.position == step.before.position();
    let rest = script.get(at..)?;
    rest.first().filter(|byte| !is_bracket && !is_offset(**byte) && **byte != b']')?;
    let told = format!("PHP refuses {} in the brackets behind a variable", character_in_words(rest));
    let advice = "Write a name, a number or a variable in them, or all of it in braces: {$a['b']}.";
    let warning = warning(script, Kind::Offset, at, told, advice);
    Some(Finding::new(warning.with_read_on("The string goes on there."), Mend::Leave))
}

/// Where a variable, a brace or a closing backtick stands that a step read last.
fn interpolation(step: &Step, last: &Record) -> Option<usize> {
    let length = match last.kind {
        kinds::BACKTICK | kinds::LEFT_BRACE => 1,
        kinds::DOLLAR_LEFT_BRACE => 2,
        kinds::VARIABLE => last.len as usize,
        _ => return None,
    };
    (step.after.position() as usize).checked_sub(length)
}

fn escape(script: &[u8], at: usize, told: &str) -> Finding {
    let warning = warning(script, Kind::Escape, at, told.to_string(), "Write it in another way.");
    Finding::new(warning.with_read_on("It is read as in PHP here."), Mend::Mask(at))
}

fn keep(warning: Warning) -> Option<Finding> {
    Some(Finding::new(warning, Mend::Keep))
}
