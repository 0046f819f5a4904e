//! What is checked of a case, and how a failing case is made smaller.

use cases::{Answer, Case, Outcome};

use crate::routines::Reading;

/// Tells what is wrong with the proved answer to a case, if anything.
pub type Check = fn(reading: &Reading, case: &Case) -> Option<String>;

/// The proved answer is the Rust's, or what the manual makes of it: tokens, values, cursor, change of frame, refusal and
/// its place.
pub fn same_as_rust(reading: &Reading, case: &Case) -> Option<String> {
    let mut expected = Answer::default();
    reading.expected(case, &mut expected);
    let got = (reading.proved)(case, true);
    (got != expected).then(|| difference("Rust", &expected, "proved", &got))
}

/// Demand 3 on one part: with more announced it waits exactly when two continuations get different answers, and else its
/// answer is that of each. Continuations are none, one and two bytes of the narrow alphabet, and longer ones that settle.
pub fn waits_exactly(reading: &Reading, case: &Case) -> Option<String> {
    let part = (reading.proved)(case, false);
    let waits = matches!(part.outcome, Outcome::Refused { number: 6, .. });
    let expected = if waits { (reading.proved)(case, true) } else { part };
    let mut longer = case.clone();
    let mut whole = Answer::default();
    let apart = any_continuation(reading, case, |more| {
        longer.source.truncate(case.source.len());
        longer.source.extend_from_slice(more);
        whole = (reading.proved)(&longer, true);
        whole != expected
    });
    if apart == waits {
        return None;
    }
    if waits {
        return Some("  it waits, and all continuations are answered alike".to_string());
    }
    Some(difference("part", &expected, &format!("of {}", hex(&longer.source)), &whole))
}

/// Whether a continuation passes the test; the empty one is the first.
fn any_continuation(reading: &Reading, case: &Case, mut test: impl FnMut(&[u8]) -> bool) -> bool {
    let narrow = reading.narrow;
    test(b"")
        || narrow.iter().any(|byte| test(&[*byte]))
        || reading.continuations.iter().any(|more| test(more))
        || (0..case.label.len()).any(|start| test(&case.label[start..]))
        || narrow.iter().any(|first| narrow.iter().any(|second| test(&[*first, *second])))
}

/// Drops bytes of source and label, many at a time at first, while the case still fails.
pub fn smaller(reading: &Reading, case: &Case, check: Check) -> Case {
    let mut best = case.clone();
    let mut width = (best.source.len() / 2).max(1);
    loop {
        let mut found = false;
        let mut start = 0;
        while start < best.source.len() {
            let shorter = without(&best, start, width);
            if check(reading, &shorter).is_some() {
                best = shorter;
                found = true;
            } else {
                start += width;
            }
        }
        if !found && width == 1 {
            return with_short_label(reading, best, check);
        }
        width = (width / 2).max(1);
    }
}

fn without(case: &Case, start: usize, width: usize) -> Case {
    let mut shorter = case.clone();
    let end = (start + width).min(case.source.len());
    shorter.source.drain(start..end);
    shorter.position = if case.position <= start { case.position } else { case.position.max(end) - (end - start) };
    shorter
}

fn with_short_label(reading: &Reading, mut case: Case, check: Check) -> Case {
    while case.label.len() > 1 {
        let mut shorter = case.clone();
        shorter.label.pop();
        if check(reading, &shorter).is_none() {
            break;
        }
        case = shorter;
    }
    case
}

/// The case line and what is wrong with it.
pub fn report(reading: &Reading, case: &Case, check: Check) -> String {
    let mut line = Vec::new();
    case.write(&mut line);
    let wrong = check(reading, case).unwrap_or_default();
    format!("  {}\n  case   {}\n{}", reading.name(), String::from_utf8_lossy(&line), wrong)
}

fn difference(first: &str, expected: &Answer, second: &str, got: &Answer) -> String {
    let line = |answer: &Answer| {
        let mut out = Vec::new();
        answer.write(&mut out);
        String::from_utf8_lossy(&out).into_owned()
    };
    format!("  {:6} {}\n  {:6} {}", first, line(expected), second, line(got))
}

fn hex(bytes: &[u8]) -> String {
    let mut out = Vec::new();
    cases::hex::write(bytes, &mut out);
    String::from_utf8_lossy(&out).into_owned()
}
