//! All tokens of a script in one list, and which of them is under a byte.

mod plain;

use std::ops::Range;

use cases::pieces;
use cases::random::Random;
use plain::last_at_or_before;
use puretakoi::{
    find, kinds, limits, refusals, Frame, Label, Listed, Reading, Refusal, Span, Token, TokenList, Tokens,
};

const TRIES: usize = 3_000;

const SCRIPTS: &[&[u8]] = &[
    b"",
    b"rows",
    b"<?php 'a' 12;\n",
    b"a<?= f(1, .5) { g(); } ?>b<? `c $d[0] {$e->f} ${g}` ",
    b"<?php \"kerb $a[1] {$b} ${c} $d->e\"; \"open $f",
    b"<?php <<<'EOT'\n  ab\n   c\n  EOT;\n<<<E\n$a\n E; 'legend'",
    b"<?php <<<'EOT'\n  ab\n c\n  EOT; 1;",
    b"<?php // it's\n# a?><?= /* \"\n'*/ 1 #[b] /**/ 2 /*/",
];

/// At every byte, and past the last, the answer must be that of a look at every record.
fn check_bytes(tokens: &TokenList, script: &[u8]) {
    let positions: Vec<u32> = tokens.iter().map(|listed| listed.token.span.position).collect();
    for byte in (0..=script.len() + 2).chain([usize::MAX]) {
        let under = tokens.at(byte);
        let number = under.as_ref().map(|under| under.listed.number);
        assert_eq!(number, last_at_or_before(positions.iter().copied(), byte), "{} of {:?}", byte, script);
        assert!(under.map_or(0, |under| under.looks) <= 17);
    }
}

/// Kind, passed bytes and value of each token.
fn told(tokens: &TokenList) -> Vec<(u32, Range<usize>, Vec<u8>)> {
    tokens.iter().map(|Listed { token, passed, .. }| (token.kind, passed, token.value)).collect()
}

/// The number of the token under a byte, and the looks.
fn under(tokens: &TokenList, byte: usize) -> Option<(usize, u32)> {
    tokens.at(byte).map(|under| (under.listed.number, under.looks))
}

#[test]
fn every_byte_of_some_scripts() {
    for script in SCRIPTS {
        for reading in [Reading::Ported, Reading::Sheet] {
            check_bytes(&TokenList::new(script, reading), script);
        }
    }
}

/// Document 01's sample. Of three tokens the second is looked at first: one look more to either side.
#[test]
fn tokens_and_what_their_steps_passed() {
    let tokens = TokenList::new(b"<?php 'a' 12;\n", Reading::Ported);
    let want = [
        (kinds::OPEN_TAG_FULL, 0..5, b"<?php".to_vec()),
        (kinds::LITERAL_SINGLE_QUOTED_STRING, 6..9, b"a".to_vec()),
        (kinds::LITERAL_INTEGER, 10..12, b"12".to_vec()),
    ];
    assert_eq!(told(&tokens), want);
    assert_eq!((tokens.len(), tokens.is_empty(), tokens.end()), (3, false, Ok(14)));
    assert_eq!((tokens.pool(), tokens.list().len()), (&b"<?phpa12"[..], 24));
    assert_eq!((tokens.session().span(), tokens.session().tokens()), (Span { line: 2, column: 1, position: 14 }, 3));
    for (byte, number) in [(0, 0), (5, 0), (6, 1), (8, 1), (9, 1), (10, 2), (13, 2), (14, 2), (99, 2)] {
        assert_eq!(under(&tokens, byte), Some((number, 2)), "byte {}", byte);
    }
    assert_eq!(tokens.get(1).map(|listed| (listed.number, listed.token.span.column)), Some((1, 7)));
    assert_eq!((tokens.get(3), tokens.get(usize::MAX / 4)), (None, None));
}

/// The step of a block writes its text and its end at one place: the end is found, wherever the finger is in the block.
#[test]
fn of_one_step_the_last_token() {
    let script = b"<?php <<<'EOT'\n  ab\n  EOT;";
    let tokens = TokenList::new(script, Reading::Sheet);
    let part = (kinds::STRING_PART, 15..25, b"ab".to_vec());
    let end = (kinds::END_DOC_STRING_SPACE, 15..25, b"EOT".to_vec());
    assert_eq!(told(&tokens)[1..], [part, end]);
    // Before the block the middles are tokens 1 and 0; from its start on 1 and 2.
    for (byte, number) in [(14, 0), (15, 2), (17, 2), (24, 2), (25, 2)] {
        assert_eq!(under(&tokens, byte), Some((number, 2)), "byte {}", byte);
    }
}

/// Each token tells in which frame its step read; a block's frame names its label.
#[test]
fn frames_of_tokens() {
    let tokens = TokenList::new(b"a<?php `$b`; <<<EOT\n$c\nEOT; 1", Reading::Sheet);
    let frames: Vec<Frame> = tokens.iter().map(|listed| listed.frame).collect();
    let block = Frame::Heredoc(Label { start: 16, len: 3 });
    let command = Frame::ShellExec;
    assert_eq!(frames, [Frame::Initial, Frame::Initial, command, command, block, block, Frame::Scripting]);
}

/// What was read before a refusal stays and can be asked.
#[test]
fn a_refused_script() {
    let tokens = TokenList::new(b"<?php 1 'kerb", Reading::Sheet);
    assert_eq!(tokens.end(), Err(Refusal { number: 1, span: Span { line: 1, column: 14, position: 13 } }));
    assert_eq!(tokens.session().position(), 8);
    assert_eq!((tokens.len(), under(&tokens, 3), under(&tokens, 12)), (2, Some((0, 2)), Some((1, 1))));
    assert_eq!(tokens.at(12).unwrap().listed.passed, 6..7);
}

#[test]
fn scripts_of_any_length() {
    let none = TokenList::new(b"", Reading::Sheet);
    assert_eq!(told(&none), [(kinds::INLINE_HTML, 0..0, Vec::new())]);
    assert_eq!((under(&none, 0), under(&none, 7)), (Some((0, 1)), Some((0, 1))));
    let many = TokenList::new(&[&b"<?php"[..], &b"[0"[..].repeat(32_765)].concat(), Reading::Ported);
    assert_eq!((many.len(), many.end()), (32_766, Ok(65_535)));
    let number = |byte| many.at(byte).unwrap().listed.number;
    assert_eq!((number(5), number(6), number(7), number(65_535)), (0, 1, 1, 32_765));
    let most = vec![b'a'; limits::MOST_BYTES];
    assert_eq!(TokenList::new(&most, Reading::Ported).get(0).unwrap().token.value, most);
}

#[test]
fn a_script_that_is_too_long() {
    let tokens = TokenList::new(&[b'a'; limits::MOST_BYTES + 1], Reading::Sheet);
    assert_eq!(tokens.end(), Err(Refusal { number: refusals::TOO_LARGE, span: Span::START }));
    assert_eq!((tokens.is_empty(), tokens.at(0), tokens.at(99)), (true, None, None));
    assert_eq!((tokens.list().len(), tokens.pool().len(), tokens.iter().count()), (0, 0, 0));
}

#[test]
fn a_list_can_be_shown() {
    let shown = format!("{:?}", TokenList::new(&b"<?php 1;".repeat(500), Reading::Sheet));
    assert!(shown.starts_with("TokenList { tokens: ") && shown.len() < 200, "{}", shown);
}

/// The tokens are those of `Tokens`, and each token that is its bytes stands in what its step passed.
fn check_tokens(tokens: &TokenList, script: &[u8], reading: Reading) {
    let (mut all, mut end) = (Vec::new(), None);
    for token in Tokens::new(script, reading) {
        match token {
            Ok(token) => all.push(token),
            Err(refusal) => end = Some(refusal),
        }
    }
    assert_eq!(tokens.iter().map(|listed| listed.token).collect::<Vec<Token>>(), all, "{:?}", script);
    assert_eq!(tokens.end().err(), end, "{:?}", script);
    let mut before = 0..0;
    for Listed { token, passed, .. } in tokens.iter() {
        assert!(passed == before || before.end <= passed.start, "{:?} of {:?}", passed, script);
        assert!(passed.start <= token.span.position as usize && passed.end <= script.len(), "{:?}", script);
        let bytes = &script[passed.clone()];
        match token.kind {
            kinds::COMMENT => assert_eq!(bytes, token.value, "{:?}", script),
            kinds::LITERAL_SINGLE_QUOTED_STRING => assert!(bytes.starts_with(b"'") && bytes.ends_with(b"'")),
            kinds::OPEN_TAG_FULL | kinds::VARIABLE => assert!(bytes.ends_with(&token.value), "{:?}", script),
            _ => {}
        }
        before = passed;
    }
}

#[test]
fn random_scripts() {
    let mut random = Random::new(5);
    let (mut refused, mut parts) = (0, 0);
    for _ in 0..TRIES {
        let script = [pieces::script(&mut random), pieces::script(&mut random)].concat();
        let reading = if random.below(2) == 0 { Reading::Ported } else { Reading::Sheet };
        let tokens = TokenList::new(&script, reading);
        check_bytes(&tokens, &script);
        check_tokens(&tokens, &script, reading);
        let byte = random.below(script.len() + 1);
        let looked_up = find(tokens.list(), tokens.len(), byte).unwrap();
        assert_eq!((looked_up.record, Some(looked_up.looks)), {
            let under = tokens.at(byte);
            (under.as_ref().map(|under| under.listed.number), under.map(|under| under.looks))
        });
        refused += usize::from(tokens.end().is_err());
        parts += tokens.iter().filter(|listed| listed.token.kind == kinds::STRING_PART).count();
    }
    assert!(refused > 100 && parts > 100, "{} refused, {} string parts", refused, parts);
}
