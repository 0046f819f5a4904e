//! Gathers a sheet: reads a script to its end, as PHP does where the library reads otherwise, and behind refusals
//! where that is safe.

use std::ops::Range;

use puretakoi::{refusals, Frame, Label, Octal, Refusal, Span};

use crate::reading::fault::Fault;
use crate::reading::form;
use crate::reading::heredoc::Heredoc;
use crate::reading::mend::{way_on, WayOn};
use crate::reading::octal::{overflows, text, Overflow};
use crate::reading::php::{span_at, Closer};
use crate::reading::reader::{Reader, Step};
use crate::reading::sheet::{block, Sheet};
use crate::reading::suspect::suspect;
use crate::reading::warning::{Kind, Warning};
use crate::reading::watch::{look, Finding, Mend};

/// How many refusals of open strings are told: behind each the reading is a guess.
const MOST_GUESSES: usize = 2;

/// How many warnings and refusals of a script are told. What follows is not read: one line may hold thousands.
const MOST_TOLD: usize = 100;

/// What was read of a script so far.
struct Gatherer<'a> {
    script: &'a [u8],
    reader: Reader,
    sheet: Sheet,
    /// The lines that the library takes for a heredoc's text and PHP does not, behind the warning's position.
    hidden: Vec<(u32, Range<u32>)>,
    /// The positions of `<<<` that are taken for openings.
    meant: Vec<u32>,
    /// Where all is a guess from there on.
    guess_from: Option<u32>,
}

/// Reads a script by these octals.
pub fn gather(script: &[u8], octals: Octal) -> Sheet {
    let lines = form::with_lf_lines(script);
    let mut gatherer = Gatherer::new(lines.as_deref().unwrap_or(script), octals);
    gatherer.guess_from = lines.as_ref().map(|_| 0);
    while gatherer.goes_on() {}
    let mut sheet = gatherer.done();
    if lines.is_some() {
        sheet.warnings.insert(0, form::cr_lines());
    }
    sheet
}

impl<'a> Gatherer<'a> {
    fn new(script: &'a [u8], octals: Octal) -> Gatherer<'a> {
        let (reader, sheet) = (Reader::new(script, octals), Sheet::default());
        Gatherer { script, reader, sheet, hidden: Vec::new(), meant: Vec::new(), guess_from: None }
    }

    /// Reads on by a step; whether there is more to read.
    fn goes_on(&mut self) -> bool {
        if self.sheet.warnings.len() + self.sheet.faults.len() >= MOST_TOLD {
            self.sheet.stopped = Some(self.reader.session().span());
            return false;
        }
        match self.reader.next_step() {
            Ok(Some(step)) => {
                match look(self.script, &step, &self.reader) {
                    Some(finding) => self.take_finding(finding, &step),
                    None => self.take_step(&step),
                }
                true
            }
            Ok(None) => false,
            Err(refusal) => self.take_refusal(refusal),
        }
    }

    /// Keeps the block or the heredoc that a step closed, and the octal escapes over 377 that it read.
    fn take_step(&mut self, step: &Step) {
        self.take_notes(self.text_in_php(step));
        self.sheet.blocks.extend(block(self.script, step));
        let is_closed = step.after.top() == Some(Frame::Scripting) && step.after.depth() == step.before.depth();
        match step.before.top() {
            Some(Frame::Heredoc(label)) if is_closed => self.take_heredoc(step, label, step.after.line()),
            _ => {}
        }
    }

    /// Keeps the octal escapes over 377 of a text that was read, as many as are told and one more; by the Rust's
    /// octals they are refused before.
    fn take_notes(&mut self, text: Option<Range<usize>>) {
        let text = text.filter(|_| self.reader.choices().octals == Octal::Manual);
        let most = MOST_TOLD + 1 - self.sheet.notes.len();
        self.sheet.notes.extend(text.into_iter().flat_map(|text| overflows(self.script, text, most)));
    }

    /// The text with escapes that a step read. Where it begins in brackets that PHP refuses, which a warning tells,
    /// what stands in them is left out.
    fn text_in_php(&self, step: &Step) -> Option<Range<usize>> {
        let text = text(step)?;
        let start = text.start as u32;
        let is_there = |warning: &Warning| warning.kind == Kind::Offset && warning.span.position == start;
        if !self.sheet.warnings.iter().any(is_there) {
            return Some(text);
        }
        let brackets = self.script[text.clone()].iter().position(|byte| *byte == b']').unwrap_or(text.len());
        Some(text.start + brackets..text.end)
    }

    /// Keeps a heredoc, which the step opened or read, with its label and the line of its closing label.
    fn take_heredoc(&mut self, step: &Step, label: Label, last: u32) {
        let is_inside = matches!(step.before.top(), Some(Frame::Heredoc(_)));
        let span = if is_inside { step.opening } else { step.before.span() };
        let label = label.bytes(self.script).unwrap_or_default().to_vec();
        self.sheet.heredocs.push(Heredoc { span, label, last, is_guess: false });
    }

    /// Keeps a warning, and goes on as it says.
    fn take_finding(&mut self, finding: Finding, step: &Step) {
        self.meant.extend(Some(step.before.position()).filter(|_| finding.warning.kind == Kind::OpensNothing));
        match finding.mend {
            Mend::Keep => self.take_step(step),
            Mend::Mask(at) => {
                if !self.reader.mask(at) {
                    return self.take_step(step);
                }
                self.reader.take_back(step);
            }
            Mend::GoOn(at, top) => {
                self.reader.take_back(step);
                self.reader.go_on(at, top);
            }
            Mend::CutRemark(at) => self.cut_remark(step, at),
            Mend::CloseHeredoc(label, closer) => self.close_heredoc(step, label, closer),
            Mend::Leave => {
                self.reader.take_back(step);
                self.reader.leave();
            }
            Mend::Stop => self.reader.stop(),
        }
        self.hidden.extend(finding.hidden.map(|lines| (finding.warning.span.position, lines)));
        self.sheet.warnings.push(finding.warning);
    }

    /// Ends the remark of a step at a place.
    fn cut_remark(&mut self, step: &Step, at: usize) {
        let remark = self.reader.remarks().pop();
        self.reader.take_back(step);
        let length = at - step.before.position() as usize;
        self.reader.remarks().extend(remark.map(|remark| remark.cut(length)));
        self.reader.go_on(at, Frame::Scripting);
    }

    fn close_heredoc(&mut self, step: &Step, label: Label, closer: Closer) {
        self.take_notes(self.text_in_php(step).map(|text| text.start..closer.label));
        self.take_heredoc(step, label, span_at(self.script, closer.label).line);
        self.reader.take_back(step);
        self.reader.go_on(closer.end, Frame::Scripting);
    }

    /// Keeps a refusal, and goes on behind it if there is a way; whether there is.
    fn take_refusal(&mut self, refusal: Refusal) -> bool {
        let (session, opening) = (self.reader.session().clone(), self.reader.opening());
        let is_end = refusal.number == refusals::UNEXPECTED_END_OF_FILE;
        let choices = self.reader.choices();
        let suspect = if is_end { suspect(self.reader.lent(), session.position(), choices) } else { None };
        let mut way = way_on(self.script, refusal, &session, opening, suspect.map(|suspect| suspect.end));
        self.sheet.faults.push(Fault::new(refusal, self.script, &session, opening, suspect));
        let ends = self.sheet.faults.iter().filter(|fault| fault.refusal.number == refusals::UNEXPECTED_END_OF_FILE);
        if ends.count() >= MOST_GUESSES {
            way = None;
        }
        match way {
            Some(WayOn::Mask(at)) if self.reader.mask(at) => {}
            Some(WayOn::GoOn(at)) => self.reader.go_on(at, Frame::Scripting),
            Some(WayOn::Guess(at)) => self.begin_again(at),
            _ => {
                self.sheet.stopped = Some(session.span());
                return false;
            }
        }
        true
    }

    /// Goes on from a place by a guess. What was read behind it is forgotten.
    fn begin_again(&mut self, at: usize) {
        self.reader.begin_again(at);
        let is_before = |span: Span| (span.position as usize) < at;
        self.sheet.blocks.retain(|block| is_before(block.span));
        self.sheet.heredocs.retain(|heredoc| is_before(heredoc.span));
        self.sheet.notes.retain(|note| is_before(note.span));
        self.sheet.warnings.retain(|warning| is_before(warning.span));
        self.sheet.faults.retain(|fault| is_before(fault.place));
        self.guess_from = self.guess_from.or(Some(at as u32));
    }

    /// The sheet, once nothing is left to read.
    fn done(mut self) -> Sheet {
        let mut sheet = self.sheet;
        sheet.remarks = std::mem::take(self.reader.remarks());
        sheet.end = self.reader.session().position();
        form::look_at_end(self.script, &self.reader, &mut sheet);
        leave_what_is_not_told(&mut sheet.notes);
        tell_what_is_hidden(&mut sheet, &self.hidden);
        sheet.warnings.sort_by_key(|warning| warning.span.position);
        let (meant, from) = (self.meant, self.guess_from.unwrap_or(u32::MAX));
        let is_guess = |span: Span| span.position >= from || meant.contains(&span.position);
        sheet.blocks.iter_mut().for_each(|block| block.is_guess = is_guess(block.span));
        sheet.heredocs.iter_mut().for_each(|heredoc| heredoc.is_guess = is_guess(heredoc.span));
        sheet.notes.iter_mut().for_each(|note| note.is_guess = is_guess(note.span));
        sheet.remarks.iter_mut().for_each(|remark| remark.is_guess = is_guess(remark.span));
        sheet.faults.iter_mut().for_each(|fault| fault.is_guess = is_guess(fault.place));
        mark_notes_in_guesses(&mut sheet);
        sheet
    }
}

/// Marks the notes on what stands in a heredoc that is a guess.
fn mark_notes_in_guesses(sheet: &mut Sheet) {
    let guesses = sheet.heredocs.iter().filter(|heredoc| heredoc.is_guess);
    let texts: Vec<Range<u32>> = guesses.map(|heredoc| heredoc.span.line + 1..heredoc.last).collect();
    for note in &mut sheet.notes {
        note.is_guess |= texts.iter().any(|lines| lines.contains(&note.span.line));
    }
}

/// Leaves as many notes as are told; the last says where there are more.
fn leave_what_is_not_told(notes: &mut Vec<Overflow>) {
    let has_more = notes.len() > MOST_TOLD;
    notes.truncate(MOST_TOLD);
    notes.last_mut().into_iter().for_each(|note| note.is_last_told = has_more);
}

/// Adds to warnings on heredocs which blocks lie in the lines that the library takes for their text.
fn tell_what_is_hidden(sheet: &mut Sheet, hidden: &[(u32, Range<u32>)]) {
    for (position, lines) in hidden {
        let blocks = sheet.blocks.iter().filter(|block| lines.contains(&block.span.line));
        let places: Vec<String> = blocks.map(|block| block.span.to_string()).collect();
        let warning = sheet.warnings.iter_mut().find(|warning| warning.span.position == *position);
        if let Some(warning) = warning.filter(|_| !places.is_empty()) {
            let noun = if places.len() == 1 { "the block at" } else { "the blocks at" };
            let verb = if places.len() == 1 { "lies" } else { "lie" };
            warning.told += &format!(", and {} {} {} between", noun, places.join(", "), verb);
        }
    }
}
