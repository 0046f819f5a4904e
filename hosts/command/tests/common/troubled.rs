//! Sheets that are made by hand, with what a script seldom has all at once.

use command::reading::fault::{Fault, Mark};
use command::reading::heredoc::Heredoc;
use command::reading::sheet::{Block, Indentation, Sheet};
use command::reading::warning::{Kind, Warning};
use puretakoi::{refusals, Refusal, Span};

fn span(line: u32, column: u32, position: u32) -> Span {
    Span { line, column, position }
}

/// A block of two rows, and a heredoc.
fn parts(is_guess: bool) -> (Vec<Block>, Vec<Heredoc>) {
    let rows = vec![b"o o".to_vec(), b"\xFF".to_vec()];
    let indentation = Indentation::Spaces(2);
    let block = Block { span: span(2, 6, 11), label: b"RELIEF".to_vec(), indentation, rows, body: 23..42, is_guess };
    (vec![block], vec![Heredoc { span: span(6, 6, 40), label: b"EOD".to_vec(), last: 9, is_guess }])
}

/// A sheet with two warnings: one with a line, one about the whole script.
pub fn warned() -> Sheet {
    let opens_nothing = Warning {
        kind: Kind::OpensNothing,
        span: span(2, 6, 11),
        mark: Some(Mark { line: 2, text: b"$a = <<<\"RELIEF\"".to_vec(), at: 5 }),
        told: "<<<\"RELIEF\" opens no block".to_string(),
        read_on: String::new(),
        advice: "Write <<<'RELIEF'.".to_string(),
    };
    let cr_lines = Warning {
        kind: Kind::CrLines,
        span: Span::START,
        mark: None,
        told: "the lines end in CR".to_string(),
        read_on: String::new(),
        advice: "Use LF.".to_string(),
    };
    let (blocks, heredocs) = parts(false);
    Sheet { blocks, heredocs, warnings: vec![opens_nothing, cr_lines], end: 60, ..Sheet::default() }
}

/// A sheet with two refusals, all behind the first a guess.
pub fn guessed() -> Sheet {
    let fault = |is_guess| Fault {
        refusal: Refusal { number: refusals::INVALID_UNICODE_ESCAPE, span: span(1, 12, 11) },
        mark: Some(Mark { line: 1, text: b"<?php \"kerb\\u{}\";".to_vec(), at: 11 }),
        detail: None,
        opening: None,
        suspect: None,
        place: span(1, 12, 11),
        is_guess,
    };
    let (blocks, heredocs) = parts(true);
    let faults = vec![fault(false), fault(true)];
    Sheet { blocks, heredocs, faults, end: 11, ..Sheet::default() }
}
