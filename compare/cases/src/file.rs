//! Files of `CASE => ANSWER` or `CALL => GIVEN` lines: `#` starts a comment line, an empty line says nothing.

use std::path::Path;

use crate::{Call, Lookup};

/// Says `ok NAME (N cases)`, or `FAILED NAME` and the first difference; true if all is as written.
/// `answer_to` appends the answer to a case line.
pub fn compare(name: &str, path: &Path, answer_to: impl FnMut(&[u8], &mut Vec<u8>)) -> bool {
    said(name, "cases", path, answer_to).is_some()
}

/// The same for a file of calls; the number of its calls, or none where something is not as written.
/// `given_by` appends what a call gives, `found_by` what a look-up does.
pub fn compare_calls(
    name: &str,
    path: &Path,
    mut given_by: impl FnMut(&Call, &mut Vec<u8>),
    found_by: impl Fn(&Lookup, &mut Vec<u8>),
) -> Option<usize> {
    said(name, "calls", path, |line, out| {
        let is_read = match Lookup::is_line(line) {
            true => Lookup::read(line).map(|lookup| found_by(&lookup, out)),
            false => Call::read(line).map(|call| given_by(&call, out)),
        };
        if let Err(wrong) = is_read {
            out.extend_from_slice(format!("fault {}", wrong).as_bytes());
        }
    })
}

/// Compares and says what came of it, with this word for the lines.
fn said(name: &str, word: &str, path: &Path, answer_to: impl FnMut(&[u8], &mut Vec<u8>)) -> Option<usize> {
    let result = match std::fs::read(path) {
        Ok(text) => first_difference(&text, answer_to),
        Err(error) => Err(format!("  {} can't be read: {}", path.display(), error)),
    };
    match &result {
        Ok(count) => println!("ok {} ({} {})", name, count, word),
        Err(difference) => println!("FAILED {}\n{}", name, difference),
    }
    result.ok()
}

/// The number of cases, or what is wrong at the first line that is not as written.
fn first_difference(text: &[u8], mut answer_to: impl FnMut(&[u8], &mut Vec<u8>)) -> Result<usize, String> {
    let mut count = 0;
    let mut got = Vec::new();
    for (index, line) in text.split(|byte| *byte == b'\n').enumerate() {
        if line.is_empty() || line[0] == b'#' {
            continue;
        }
        let (case, expected) = split_at_arrow(line)
            .ok_or_else(|| format!("  line {} has no ` => ` between case and answer", index + 1))?;
        got.clear();
        answer_to(case, &mut got);
        if got != expected {
            return Err(difference(index + 1, case, expected, &got));
        }
        count += 1;
    }
    if count == 0 {
        return Err("  the file holds no cases".to_string());
    }
    Ok(count)
}

fn split_at_arrow(line: &[u8]) -> Option<(&[u8], &[u8])> {
    let arrow = b" => ";
    let start = line.windows(arrow.len()).position(|part| part == arrow)?;
    Some((&line[..start], &line[start + arrow.len()..]))
}

fn difference(number: usize, case: &[u8], expected: &[u8], got: &[u8]) -> String {
    format!(
        "  line     {}\n  case     {}\n  expected {}\n  got      {}",
        number,
        case.escape_ascii(),
        expected.escape_ascii(),
        got.escape_ascii()
    )
}
