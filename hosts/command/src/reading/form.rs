//! What is told of a whole script: its encoding, its line ends, what is missing in it, and what is open at its end.

use puretakoi::{kinds, Frame};

use crate::reading::reader::Reader;
use crate::reading::sheet::Sheet;
use crate::reading::warning::{Kind, Warning};
use crate::reading::watch::warning;

/// A script whose lines all end in a CR alone, with an LF in each one's place.
pub fn with_lf_lines(script: &[u8]) -> Option<Vec<u8>> {
    let is_cr = |byte: &u8| *byte == b'\r';
    let has_cr_lines = script.iter().any(is_cr) && !script.contains(&b'\n') && !is_utf16(script);
    let with_lf = || script.iter().map(|byte| if is_cr(byte) { b'\n' } else { *byte }).collect();
    Some(()).filter(|_| has_cr_lines).map(|_| with_lf())
}

/// The warning on a script whose lines all end in a CR alone.
pub fn cr_lines() -> Warning {
    let told = "all lines end in a CR alone: PHP takes them for lines, the library for one line";
    Warning::of_all(Kind::CrLines, told, "It is read as if each ended in LF. Save the script with LF or CRLF.")
}

/// Adds what is told once a script is read to its end.
pub fn look_at_end(script: &[u8], reader: &Reader, sheet: &mut Sheet) {
    if !sheet.faults.is_empty() || sheet.stopped.is_some() {
        return;
    }
    sheet.warnings.extend(still_open(script, reader));
    let is_tag = |kind| reader.has_read(kind);
    let has_tag = [kinds::OPEN_TAG_FULL, kinds::OPEN_TAG_ECHO, kinds::OPEN_TAG_SHORT].into_iter().any(is_tag);
    if script.is_empty() {
        let advice = "Look whether it was saved, or whether the right file is named.";
        sheet.warnings.push(Warning::of_all(Kind::Empty, "the script is empty", advice));
    } else if is_utf16(script) {
        let told = "the script is in UTF-16, so PHP and the library take all of it for text";
        sheet.warnings.push(Warning::of_all(Kind::Utf16, told, "Save it as UTF-8."));
    } else if !has_tag {
        let told = "no open tag is in the script, so all of it is text";
        sheet.warnings.push(Warning::of_all(Kind::NoOpenTag, told, "Write <?php at its start."));
    } else if sheet.blocks.is_empty() && sheet.warnings.is_empty() {
        sheet.warnings.push(no_block(sheet));
    }
}

/// Whether bytes are UTF-16: by their mark, or by the zero byte beside the first characters.
fn is_utf16(script: &[u8]) -> bool {
    let has_zeros =
        |first: usize| script.len() >= 4 && script[first] == 0 && script[first + 2] == 0 && script[1 - first] != 0;
    script.starts_with(b"\xFF\xFE") || script.starts_with(b"\xFE\xFF") || has_zeros(0) || has_zeros(1)
}

/// A string, command or heredoc within which the script ends, in what it interpolates.
fn still_open(script: &[u8], reader: &Reader) -> Option<Warning> {
    let (frame, span) = reader.open_text()?;
    let what = match frame {
        Frame::ShellExec => "command",
        Frame::Heredoc(_) => "heredoc",
        _ => "string",
    };
    let told = format!("the {} that opens here is still open where the script ends", what);
    let advice = "The } of an interpolation is missing: write it behind the variable.";
    Some(warning(script, Kind::StillOpen, span.position as usize, told, advice))
}

/// What may be the reason that a script has no block.
fn no_block(sheet: &Sheet) -> Warning {
    let hidden = sheet.remarks.iter().find(|remark| remark.text.windows(3).any(|part| part == b"<<<"));
    let told = match (hidden, sheet.heredocs.first()) {
        (Some(remark), _) => format!("no block is in the script, but <<< stands in the remark at {}", remark.span),
        (None, Some(heredoc)) => {
            format!("no block is in the script, but a heredoc at {}, which is not shown", heredoc.span)
        }
        (None, None) => "no block is in the script".to_string(),
    };
    let advice = "If rows are meant, write them between a line that ends in <<<'LABEL' and a line with LABEL.";
    Warning::of_all(Kind::NoBlock, &told, advice)
}
