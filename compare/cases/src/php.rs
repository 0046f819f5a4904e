//! What PHP made of octal escapes, stored: lines `octals TEXT => HEX..`, where TEXT is an expression of PHP with one
//! sign for each octal digit in turn. Each is walked under the manual's choice, and must come to PHP's bytes.

use std::path::Path;

use crate::call::{ANSWER, CHOICES, COLUMN, DEPTH, LINE, OCTAL_MANUAL, RECORD, SESSION, SLOTS};
use crate::{hex, Call, Function, Told};

/// The signs of the file: each octal digit in turn, and LF.
const DIGIT: &str = "⑧";
const BREAK: &str = "⏎";

/// The frame's number, and the kinds of a text, a variable and what ends a text.
const SCRIPTING: u32 = 1;
const TEXTS: [u32; 2] = [5, 18];
const VARIABLE: u32 = 10;
const ENDS: [u32; 2] = [8, 11];

/// What PHP has for the variable.
const VALUE: &[u8] = b"A";

/// Says `ok NAME (N cases)`, or where a text is not PHP's; true if all are. `come_to` says what a walk comes to.
pub fn compare(name: &str, path: &Path, come_to: impl FnMut(&Call) -> Option<Told>) -> bool {
    let read = std::fs::read_to_string(path).map_err(|error| format!("  {}: {}", path.display(), error));
    match read.and_then(|text| first_difference(&text, come_to)) {
        Ok(count) => println!("ok {} ({} cases)", name, count),
        Err(wrong) => {
            println!("FAILED {}\n{}", name, wrong);
            return false;
        }
    }
    true
}

/// The number of texts, or the first that is not PHP's.
fn first_difference(text: &str, mut come_to: impl FnMut(&Call) -> Option<Told>) -> Result<usize, String> {
    let mut count = 0;
    for line in text.lines().filter(|line| !line.is_empty() && !line.starts_with('#')) {
        let (expression, answers) =
            parts_of(line).ok_or_else(|| format!("  {} is no line `octals TEXT => HEX..` of eight answers", line))?;
        count += answers.len();
        answers.iter().enumerate().try_for_each(|(digit, answer)| {
            let source = expression.replace(DIGIT, &digit.to_string()).replace(BREAK, "\n");
            let got = come_to(&call_of(source.as_bytes())).and_then(|told| value_of(&told));
            is_same(&source, answer, got)
        })?;
    }
    if count == 0 {
        return Err("  the file holds no answers".to_string());
    }
    Ok(count)
}

/// The expression of a line, and its eight answers.
fn parts_of(line: &str) -> Option<(&str, Vec<&str>)> {
    let (expression, answers) = line.strip_prefix("octals ")?.split_once(" => ")?;
    let answers: Vec<&str> = answers.split(' ').collect();
    Some((expression, answers)).filter(|(_, answers)| answers.len() == 8)
}

/// Whether a text is there, and is PHP's.
fn is_same(source: &str, answer: &str, got: Option<Vec<u8>>) -> Result<(), String> {
    let mut said = Vec::new();
    match got {
        Some(text) => hex::write(&text, &mut said),
        None => said.extend_from_slice(b"no text"),
    }
    if said == answer.as_bytes() {
        return Ok(());
    }
    Err(format!("  text {}\n  PHP  {}\n  here {}", source.escape_debug(), answer, String::from_utf8_lossy(&said)))
}

/// A walk over an expression to its end, in a session under the manual's choice.
fn call_of(source: &[u8]) -> Call {
    let mut session = vec![0; SESSION];
    session[LINE] = 1;
    session[COLUMN] = 1;
    session[DEPTH] = 1;
    session[CHOICES] = OCTAL_MANUAL as u32;
    session[SLOTS] = SCRIPTING;
    Call {
        function: Function::Walk,
        arguments: vec![source.len() + 1],
        end: 1,
        session,
        list: (source.len() + 1) * RECORD,
        pool: source.len(),
        answer: ANSWER,
        source: source.to_vec(),
    }
}

/// The text of a walk's records, with the variable's value for a variable; none where there is another kind, or no end.
fn value_of(told: &Told) -> Option<Vec<u8>> {
    let (records, values) = match told {
        Told::Done { finished: true, records, values, .. } => (records, values),
        _ => return None,
    };
    let mut text = Vec::new();
    for [kind, _, _, _, _, start, length, _] in records {
        match kind {
            kind if TEXTS.contains(kind) => text.extend_from_slice(&values[*start as usize..(start + length) as usize]),
            &VARIABLE => text.extend_from_slice(VALUE),
            kind if ENDS.contains(kind) => {}
            _ => return None,
        }
    }
    Some(text)
}
