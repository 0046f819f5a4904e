//! What a finger points at in a script, and how a person is told of it.

use std::ops::Range;

use puretakoi::{refusals, Frame, Listed, Span, Token, TokenList, Under};

use crate::commands::check::{refused, refused_in, Finding};
use crate::commands::output::{ALL_GOOD, REFUSED, WARNED};
use crate::commands::token;
use crate::reading::fault::{character_in_words, counted, Mark};
use crate::reading::finger::{is_closer, spot, Spot};
use crate::reading::php::span_at;
use crate::reading::sheet::Sheet;
use crate::reading::touch::{touch, Part, Touch};
use crate::reading::warning::Warning;
use crate::showing::shown::{shown, split};
use crate::showing::text::{block_name, marked_line};

/// What a finger points at.
#[derive(Debug)]
pub struct Pointed<'a> {
    script: &'a [u8],
    /// All tokens of the script.
    pub tokens: &'a TokenList,
    /// The place.
    pub span: Span,
    /// The token that is found at the place, and the looks.
    pub under: Option<Under>,
    /// Where the finger is among the tokens.
    pub spot: Spot,
    /// The block that has the place, as `view` shows it.
    pub touch: Option<Touch<'a>>,
    /// The refusal, if the reading is refused before or at the place.
    pub refusal: Option<Finding>,
    /// The first warning before or at the place that says that PHP reads something else.
    pub warning: Option<&'a Warning>,
    /// Whether the reading of the sheet, which goes on as PHP does, is refused there too.
    is_sheet_refused: bool,
}

impl<'a> Pointed<'a> {
    /// What is at a byte of a script, with its tokens, and with the sheet that `view` shows of it, if there is one.
    pub fn new(script: &'a [u8], tokens: &'a TokenList, sheet: Option<&'a Sheet>, byte: usize) -> Pointed<'a> {
        let spot = spot(tokens, script, byte);
        let refusal = match spot {
            Spot::Unread(_, refusal) => Some(refusal),
            _ => None,
        };
        let fault = refusal.and_then(|refusal| sheet?.faults.iter().find(|fault| fault.refusal == refusal));
        let warning = sheet.and_then(|sheet| {
            sheet.warnings.iter().find(|warning| warning.kind.is_of_php() && warning.span.position as usize <= byte)
        });
        Pointed {
            script,
            tokens,
            span: span_at(script, byte),
            under: tokens.at(byte),
            spot,
            touch: sheet.and_then(|sheet| touch(sheet, script, byte)),
            refusal: refusal.map(|refusal| fault.map_or_else(|| refused_in(script, refusal), refused)),
            warning,
            is_sheet_refused: fault.is_some(),
        }
    }

    /// The status: after a warning a refusal that `view` does not have is that of a reading which it left there.
    pub fn status(&self) -> u8 {
        match (&self.refusal, self.warning) {
            (Some(_), None) => REFUSED,
            (Some(_), Some(_)) if self.is_sheet_refused => REFUSED,
            (_, Some(_)) => WARNED,
            (None, None) => ALL_GOOD,
        }
    }

    /// All that is told, for a script of this name, in so many columns.
    pub fn text(&self, name: &str, columns: Option<usize>) -> String {
        let mut lines = vec![format!("{} at {}, byte {}: {}", name, self.span, self.span.position, self.sign())];
        lines.extend(
            self.touch
                .as_ref()
                .map(|touch| format!("{}: {}", block_name(touch.block, touch.number), part_in_words(touch.part))),
        );
        lines.extend(marked_line(&self.mark(), columns));
        lines.extend(self.token_lines());
        lines.push(self.looks());
        lines.extend(self.refusal.as_ref().map(|refusal| refusal.line(name).trim_end().to_string()));
        lines.extend(self.warning_in_words(Warning::sentence));
        lines.join("\n") + "\n"
    }

    /// What PHP reads otherwise before or at the place, with what a sentence tells of the warning.
    pub fn warning_in_words(&self, sentence: fn(&Warning) -> String) -> Option<String> {
        let warning = self.warning?;
        let told = shown(sentence(warning).as_bytes());
        Some(format!("PHP reads something else at {} ({}): {}", warning.span, warning.kind.name(), told))
    }

    /// Where the step ended that wrote the token which the finger is in.
    pub fn end(&self) -> Option<Span> {
        self.spot.token()?.token.end.map(|end| span_at(self.script, end as usize))
    }

    /// The bytes of the literal or the comment that the finger is in. The token that is found may have ended before.
    pub fn literal(&self) -> Option<Range<usize>> {
        let bytes = self.under.as_ref()?.listed.written(self.script)?;
        Some(bytes).filter(|bytes| bytes.contains(&(self.span.position as usize)))
    }

    /// Where all literals and comments that are read begin.
    pub fn literals(&self) -> Vec<Span> {
        let all = self.tokens.iter().filter(|listed| listed.written(self.script).is_some());
        all.map(|listed| listed.token.span).collect()
    }

    /// The character at the place, in words.
    pub fn sign(&self) -> String {
        let rest = self.script.get(self.span.position as usize..).unwrap_or_default();
        let mark = Mark::new(self.script, self.span);
        match (rest.first(), split(&mark.text, mark.at).1.first()) {
            (None, _) => "the end of the script".to_string(),
            (Some(b' ' | b'\t' | b'"'), _) | (_, None) => character_in_words(rest),
            (_, Some(piece)) => format!("\"{}\"", piece.text),
        }
    }

    /// The row of the cell, or the line of the script, and the place in it.
    fn mark(&self) -> Mark {
        match &self.touch {
            Some(Touch { block, part: Part::Cell(place), .. }) => {
                let text = block.rows.get(place.row - 1).cloned().unwrap_or_default();
                Mark { line: place.row as u32, text, at: place.start }
            }
            _ => Mark::new(self.script, self.span),
        }
    }

    /// The token that the finger is in, or those that it is between.
    fn token_lines(&self) -> Vec<String> {
        let between = |what: &str| {
            let before = self.spot.before().map(|before| self.listed_line("After", before, token::short_line));
            let after = self.spot.after().map(|after| self.listed_line("Before", after, token::short_line));
            [Some(what.to_string()), before, after].into_iter().flatten().collect()
        };
        match &self.spot {
            Spot::Token(listed, own) => {
                let token = self.listed_line("In", listed, token::line_without_end);
                let told = [Some(token), self.own_in_words(), self.end_in_words(own.end), self.line_in_words(listed)];
                told.into_iter().flatten().collect()
            }
            Spot::ClosingIndentation(closer) => {
                let place = "In the indentation of the closing line,";
                let token = self.listed_line(place, closer, token::line_without_end);
                [Some(token), self.end_in_words(closer.passed.end)].into_iter().flatten().collect()
            }
            Spot::Between(..) => between("No token has this byte."),
            Spot::LostBreak(..) => between("No token has this line break: it is left out."),
            Spot::End(_) => between("No token is at the end."),
            Spot::Unread(_, refusal) if refusal.number == refusals::TOO_LARGE => {
                between("No token: the script is too large for the library; view reads its first 65,536 bytes.")
            }
            Spot::Unread(..) => {
                let from = self.tokens.session().span();
                let block = if self.touch.is_some() { "; the block is what view reads after that" } else { "" };
                between(&format!("No token: nothing is read from {} on{}.", from, block))
            }
        }
    }

    /// A token with its number, its place and its value.
    fn listed_line(&self, where_it_is: &str, listed: &Listed, line: fn(&Token) -> String) -> String {
        let (number, byte, line) = (listed.number + 1, listed.token.span.position, line(&listed.token));
        format!("{} token {} of {}, at byte {}: {}", where_it_is, number, self.tokens.len(), byte, line)
    }

    /// The bytes of the token that the finger is in, where it bears another token's place.
    fn own_in_words(&self) -> Option<String> {
        let (listed, own) = match &self.spot {
            Spot::Token(listed, own) if listed.token.span.position as usize != own.start => (listed, own),
            _ => return None,
        };
        let (place_of, start) = (self.place_of(listed), span_at(self.script, own.start));
        Some(format!("It bears the place of {}, and begins at {}, byte {}.", place_of, start, own.start))
    }

    /// Where the token ends that the finger is in, and where its step ends, if that wrote another token after it.
    fn end_in_words(&self, own_end: usize) -> Option<String> {
        let (end, own) = (self.end()?, span_at(self.script, own_end));
        let its_step = format!("; its step ends before {}, byte {}", end, end.position);
        let its_step = if own == end { String::new() } else { its_step };
        Some(format!("It ends before {}, byte {}{}.", own, own.position, its_step))
    }

    /// Whose place a token bears that begins after it: that of its step's text, or of what no token has.
    fn place_of(&self, listed: &Listed) -> &'static str {
        let before = listed.number.checked_sub(1).and_then(|number| self.tokens.get(number));
        match before.map_or(false, |before| before.token.span == listed.token.span) {
            true => "the text before it",
            false => "what is left out before it",
        }
    }

    /// Which line of a token the place is in, and how many the token has in the script, where it has several.
    pub fn line_of_token(&self) -> Option<(usize, usize)> {
        let own = match &self.spot {
            Spot::Token(_listed, own) => own.clone(),
            _ => return None,
        };
        let front = self.script.get(own.start..self.span.position as usize)?;
        let number = front.iter().filter(|byte| **byte == b'\n').count() + 1;
        let count = self.script.get(own)?.split_inclusive(|byte| *byte == b'\n').count();
        Some((number, count)).filter(|_| count > 1)
    }

    /// Where in a token the place is, if no block that is shown tells it: its line, the text block, the closing label.
    fn line_in_words(&self, listed: &Listed) -> Option<String> {
        let line = self.line_of_token().map(|(number, count)| format!("line {} of its {} lines", number, count));
        let block = match self.text_block(listed.frame) {
            _ if self.touch.is_some() => return None,
            Some(block) => block,
            None => return line.map(|line| format!("It is {} in the script.", line)),
        };
        let place = if is_closer(listed) { Some("the closing label".to_string()) } else { line };
        let place = place.map_or_else(String::new, |place| format!("{}, ", place));
        Some(format!("It is {}in the {}.", place, block))
    }

    /// The text block that a frame reads, in words.
    pub fn text_block(&self, frame: Frame) -> Option<String> {
        let (kind, label) = match frame {
            Frame::Heredoc(label) => ("heredoc", label),
            Frame::Nowdoc(label) => ("nowdoc block", label),
            _ => return None,
        };
        Some(format!("{} {}", kind, shown(label.bytes(self.script)?)))
    }

    /// How many records were looked at, and which token that led to, if the finger is not in it.
    fn looks(&self) -> String {
        let Under { listed: found, looks } = match &self.under {
            Some(under) => under,
            None => return "No record was looked at, for there is none.".to_string(),
        };
        let verb = if *looks == 1 { "was" } else { "were" };
        let told = format!("{} {} looked at.", counted(*looks as usize, "record"), verb);
        if self.spot.token().or_else(|| self.spot.before()) == Some(found) {
            return told;
        }
        let (number, name, place_of) = (found.number + 1, found.token.kind_name(), self.place_of(found));
        format!("{} This leads to token {} ({}), which bears the place of {}.", told, number, name, place_of)
    }
}

/// What of a block is meant, in words.
fn part_in_words(part: Part) -> String {
    match part {
        Part::Opening => "its opening".to_string(),
        Part::Indentation(row) => format!("row {}, its indentation, which comes off", row),
        Part::Cell(place) => format!("row {}, cell {}", place.row, place.cell),
        Part::Break(row) => format!("row {}, the line break after it", row),
        Part::ClosingIndentation => "the indentation of its closing line".to_string(),
        Part::Label => "its closing label".to_string(),
    }
}
