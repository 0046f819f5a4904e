//! Octal escapes under both choices (document 02, P5): cases worked by hand, then all of `\000` to `\777`, escapes that
//! are cut or go on, the choices of every call, and numbers that are none.

use cases::call::{ANSWER, CHOICES, OCTAL_MANUAL, RECORD, SESSION};
use cases::{Call, Function, Told};
use telling::Teller;

use crate::sessions::{bare, plain, put_frames, trimmed, Slot, DOUBLE_QUOTE, HEREDOC, SCRIPTING};
use crate::walks;
use crate::worked;

/// The cases that are worked by hand.
const WORKED: [worked::Case; 24] = [
    (
        "`\\400` under the manual's choice: one byte, 0",
        "read_double - 1 199:0,1,1,1,0,0,2,1 8 1 5 5c34303022",
        "done 199:5,1,6,1,1,1,2,1 18,0,1,1,0,0,1,5 00",
    ),
    (
        "under the Rust's: refused after its third digit",
        "read_double - 1 199:0,1,1,1,0,0,0,1 8 1 5 5c34303022",
        "refused 3 1 5 4",
    ),
    (
        "`\\777`: 255",
        "read_double - 1 199:0,1,1,1,0,0,2,1 8 1 5 5c37373722",
        "done 199:5,1,6,1,1,1,2,1 18,0,1,1,0,0,1,5 ff",
    ),
    (
        "`\\377`, which does not overflow: 255 under both",
        "read_double - 1 199:0,1,1,1,0,0,2,1 8 1 5 5c33373722",
        "done 199:5,1,6,1,1,1,2,1 18,0,1,1,0,0,1,5 ff",
    ),
    (
        "`\\4000`: a fourth digit is text",
        "read_double - 1 199:0,1,1,1,0,0,2,1 8 2 5 5c3430303022",
        "done 199:6,1,7,1,1,2,2,1 18,0,1,1,0,0,2,6 0030",
    ),
    (
        "`\\442` is a quote that closes nothing",
        "read_double - 1 199:0,1,1,1,0,0,2,1 8 1 5 5c34343222",
        "done 199:5,1,6,1,1,1,2,1 18,0,1,1,0,0,1,5 22",
    ),
    (
        "`\\444a` is no variable",
        "read_double - 1 199:0,1,1,1,0,0,2,1 8 2 5 5c3434346122",
        "done 199:6,1,7,1,1,2,2,1 18,0,1,1,0,0,2,6 2461",
    ),
    (
        "`\\573$a`: its brace begins nothing, the variable after it does",
        "read_double - 1 199:0,1,1,1,0,0,2,1 8 1 5 5c353733246122",
        "done 199:4,1,5,1,1,1,2,2 5,0,1,1,0,0,1,4 7b",
    ),
    (
        "`\\534n`: its backslash begins no escape",
        "read_double - 1 199:0,1,1,1,0,0,2,1 8 2 5 5c3533346e22",
        "done 199:6,1,7,1,1,2,2,1 18,0,1,1,0,0,2,6 5c6e",
    ),
    (
        "`\\\\400` is a backslash and three digits, under the Rust's choice too",
        "read_double - 1 199:0,1,1,1,0,0,0,1 8 4 5 5c5c34303022",
        "done 199:6,1,7,1,1,4,0,1 18,0,1,1,0,0,4,6 5c343030",
    ),
    (
        "by a step at the quote",
        "step - 1 199:0,1,1,1,0,0,2,1 8 1 5 225c34303022",
        "done 199:6,1,7,1,1,1,2,1 18,0,1,1,0,0,1,6 00",
    ),
    (
        "after an interpolation",
        "step - 1 199:0,1,1,1,0,0,2,2 16 3 5 5c3430302461",
        "done 199:6,1,7,1,2,3,2,2 5,0,1,1,0,0,1,6/10,0,1,1,0,1,2,6 002461",
    ),
    ("the same under the Rust's choice", "step - 1 199:0,1,1,1,0,0,0,2 16 3 5 5c3430302461", "refused 3 1 5 4"),
    (
        "in a heredoc, before its label",
        "step - 1 199:2,2,1,1,0,0,2,4,0,1 16 3 5 450a615c3430300a453b",
        "done 199:9,3,2,1,2,3,2,1 5,0,2,1,2,0,2,9/11,0,2,1,2,2,1,9 610045",
    ),
    (
        "the same under the Rust's choice",
        "step - 1 199:2,2,1,1,0,0,0,4,0,1 16 3 5 450a615c3430300a453b",
        "refused 3 2 6 7",
    ),
    (
        "in a heredoc an LF of `\\412` is lost before a variable, as one of `\\n` is",
        "step - 1 199:2,2,1,1,0,0,2,4,0,1 16 3 5 450a615c34313224783b",
        "done 199:9,2,8,1,2,3,2,4,0,1 5,0,2,1,2,0,1,9/10,0,2,1,2,1,2,9 612478",
    ),
    ("`\\40` with more announced waits", "read_double - 0 199:0,1,1,1,0,0,0,1 8 1 5 5c3430", "refused 6 1 1 0"),
    ("under the manual's choice too", "read_double - 0 199:0,1,1,1,0,0,2,1 8 1 5 5c3430", "refused 6 1 1 0"),
    (
        "`\\400` with more announced is refused at once under the Rust's choice",
        "read_double - 0 199:0,1,1,1,0,0,0,1 8 1 5 5c343030",
        "refused 3 1 5 4",
    ),
    (
        "under the manual's its string is open, and waits",
        "read_double - 0 199:0,1,1,1,0,0,2,1 8 1 5 5c343030",
        "refused 6 1 1 0",
    ),
    ("its byte takes a place in the pool", "read_double - 1 199:0,1,1,1,0,0,2,1 8 0 5 5c34303022", "refused 8 1 1 0"),
    (
        "in single quotes it is no escape",
        "read_single - 1 199:0,1,1,1,0,0,2,1 8 4 5 5c34303027",
        "done 199:5,1,6,1,1,4,2,1 17,0,1,1,0,0,4,5 5c343030",
    ),
    (
        "nor between backticks",
        "step - 1 199:0,1,1,1,0,0,2,3 16 5 5 5c34303060",
        "done 199:5,1,6,1,2,5,2,1 5,0,1,1,0,0,4,5/9,0,1,1,0,4,1,5 5c34303060",
    ),
    (
        "nor in a nowdoc block, here with both choices",
        "step - 1 199:2,2,1,1,0,0,3,5,0,1 16 5 5 450a5c3430300a45",
        "done 199:8,3,2,1,2,5,3,1 5,0,2,1,2,0,4,8/11,0,2,1,2,4,1,8 5c34303045",
    ),
];

/// A function and a frame over the label `E`, and what opens and closes a text there.
const ROUTINES: [(Function, Slot, &[u8], &[u8]); 4] = [
    (Function::ReadDouble, bare(SCRIPTING), b"", b"\""),
    (Function::Step, bare(DOUBLE_QUOTE), b"", b"$a;"),
    (Function::Step, [HEREDOC, 0, 1], b"", b"x\nE;"),
    (Function::Step, bare(SCRIPTING), b"\"", b"\";"),
];

/// How many of the routines are tried with all escapes: the last has the text of the first.
const WITH_ALL: usize = 3;

/// Escapes that are cut, go on, or stand before what may begin something; and what only looks like one.
const TEXTS: [&[u8]; 22] = [
    b"\\4",
    b"\\40",
    b"\\7",
    b"\\77",
    b"\\377",
    b"\\400",
    b"\\4000",
    b"\\7778",
    b"\\442",
    b"\\444a",
    b"\\573$a",
    b"\\534",
    b"\\534\"",
    b"\\412",
    b"\\412$a",
    b"\\412{$a",
    b"\\412\nE",
    b"\\48",
    b"\\408",
    b"\\\\400",
    b"\\x400",
    b"\\400\\4",
];

/// So many bytes are more than a step keeps of a text before it reads it again.
const LONG: usize = 300;

/// Numbers that are choices, and numbers with a bit that is no flag.
const CHOSEN: [u32; 4] = [0, 1, 2, 3];
const NO_CHOICES: [u32; 10] = [4, 5, 6, 7, 8, 256, 65_536, 1 << 31, u32::MAX - 3, u32::MAX];

/// Each function with its arguments, on a session of two frames at a text that each of them can read.
const TEXT: &[u8] = b"7'\"'";
const CALLED: [(Function, &[usize]); 10] = [
    (Function::Step, &[]),
    (Function::Walk, &[0]),
    (Function::Walk, &[1]),
    (Function::Walk, &[9]),
    (Function::ReadNumber, &[]),
    (Function::ReadSingle, &[]),
    (Function::ReadDouble, &[]),
    (Function::Skip, &[1]),
    (Function::Push, &[HEREDOC as usize, 0, 1]),
    (Function::Pop, &[]),
];

/// Scripts with octal escapes over 255.
const SCRIPTS: [&[u8]; 3] = [
    b"<?php \"\\400\" 7;",
    b"<?php \"a\\442$b\\777\" '\\400' `\\400`;",
    b"<?php <<<E\n\\412$a\\573\n\\501\nE . \"\\40\\400\";",
];

const NUMBERS: usize = 512;
const OVERFLOW: u32 = 3;

/// A file's lines: each worked case with its title, then all others.
pub fn lines(teller: &mut Teller) -> Vec<(Option<&'static str>, Call)> {
    let mut lines = worked::lines(&WORKED, teller);
    let others = [every_escape(teller), ends(), fresh(), choices(), scripts(teller)].concat();
    lines.extend(others.into_iter().map(|call| (None, call)));
    lines
}

/// A call of a routine at a text between what opens and closes it.
fn at((function, top, open, _): (Function, Slot, &[u8], &[u8]), text: &[u8], choices: u32) -> Call {
    let mut call = plain(function, b"E\n", &[open, text].concat(), top);
    call.session[CHOICES] = choices;
    call
}

/// All of `\000` to `\777` under both choices, each held to what its number says.
fn every_escape(teller: &mut Teller) -> Vec<Call> {
    let mut calls = Vec::new();
    for routine in &ROUTINES[..WITH_ALL] {
        for number in 0..NUMBERS {
            let text = [format!("\\{:03o}", number).as_bytes(), routine.3].concat();
            for octals in [0, OCTAL_MANUAL as u32] {
                let call = at(*routine, &text, octals | (number as u32 & 1));
                let is_refused = number > 255 && octals == 0;
                match teller.told(&call) {
                    Told::Refused { number: OVERFLOW, .. } => assert!(is_refused, "\\{:03o}", number),
                    Told::Done { values, .. } => {
                        assert!(!is_refused && usize::from(values[0]) == number & 255, "\\{:03o}", number)
                    }
                    told => panic!("\\{:03o} comes to {:?}", number, told),
                }
                calls.push(call);
            }
        }
    }
    calls
}

/// The other texts and a long one, open and closed, whole and as parts.
fn ends() -> Vec<Call> {
    let long = [&[b'a'; LONG], &b"\\501\\400\\777b"[..]].concat();
    let mut calls = Vec::new();
    for routine in ROUTINES {
        for text in TEXTS.iter().chain(&[&long[..]]) {
            for octals in [0, OCTAL_MANUAL as u32] {
                let call = at(routine, text, octals);
                calls.push(Call { end: 0, ..call.clone() });
                calls.push(call);
                calls.push(at(routine, &[text, routine.3].concat(), octals));
            }
        }
    }
    calls
}

fn fresh() -> Vec<Call> {
    let call = trimmed(plain(Function::Fresh, b"", b"", bare(SCRIPTING)));
    let with = |choices: &u32| Call { arguments: vec![*choices as usize], session: vec![9; SESSION], ..call.clone() };
    CHOSEN.iter().chain(&NO_CHOICES).map(with).collect()
}

/// Each function keeps all choices, and refuses a number that is none; a source too large comes before that.
fn choices() -> Vec<Call> {
    let mut calls = Vec::new();
    for (function, arguments) in CALLED {
        for number in CHOSEN.iter().chain(&NO_CHOICES) {
            let mut call = Call { arguments: arguments.to_vec(), ..plain(function, b"E\n", TEXT, bare(SCRIPTING)) };
            put_frames(&mut call, &[bare(SCRIPTING), bare(SCRIPTING)]);
            call.session[CHOICES] = *number;
            calls.push(call);
        }
        let mut large = calls[calls.len() - NO_CHOICES.len()].clone();
        large.source = vec![b'a'; 65_537];
        calls.push(large);
    }
    calls
}

/// Walks under all choices, in one call and step by step, and as parts.
fn scripts(teller: &mut Teller) -> Vec<Call> {
    let mut calls = Vec::new();
    for script in SCRIPTS {
        for choices in CHOSEN {
            let walk = Call { answer: ANSWER + 1, ..walks::fresh(script, choices) };
            calls.extend([1, 3].map(|most| Call { arguments: vec![most], ..walk.clone() }));
            calls.push(Call { list: 2 * RECORD, ..walk.clone() });
            calls.push(walk);
        }
        for cut in 1..script.len() {
            let part = walks::fresh(&script[..cut], OCTAL_MANUAL as u32);
            assert_ne!(teller.told(&part).refusal().0, OVERFLOW, "under the manual's choice");
            calls.push(Call { end: 0, ..part });
        }
    }
    calls
}
