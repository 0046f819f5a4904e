//! The tokens of a whole script, and kinds and refusals as enums.

use puretakoi::{kinds, limits, refusals, tokens, Kind, Reading, Reason, Refusal, Span, Stream, Token, Tokens};

fn token(kind: Kind, detail: u32, (line, column, position): (u32, u32, u32), end: u32, value: &[u8]) -> Token {
    let span = Span { line, column, position };
    Token { kind: kind.number(), detail, span, end: Some(end), value: value.to_vec() }
}

/// The worked sheet o of document 01, in a script: by the sheet reading the rows lose the closing line's indentation.
#[test]
fn all_tokens_in_either_reading() {
    let script = b"<?php <<<'EOT'\n  ab\n   c\n\n  EOT;";
    let read = |rows: &[u8]| {
        let tag = token(Kind::OpenTagFull, 0, (1, 1, 0), 5, b"<?php");
        let part = token(Kind::StringPart, 0, (2, 1, 15), 31, rows);
        vec![tag, part, token(Kind::EndDocStringSpace, 2, (2, 1, 15), 31, b"EOT")]
    };
    assert_eq!(tokens(script), Ok(read(b"  ab\n   c\n")));
    let sheet: Result<Vec<Token>, Refusal> = Tokens::new(script, Reading::Sheet).collect();
    assert_eq!(sheet, Ok(read(b"ab\n c\n")));
}

/// Tokens before a refusal are given; behind it nothing comes.
#[test]
fn a_refusal_is_the_last_item() {
    let script = b"<?php 1 'kerb";
    let refusal = Refusal { number: 1, span: Span { line: 1, column: 14, position: 13 } };
    let mut all = Tokens::new(script, Reading::Ported);
    assert_eq!(all.next(), Some(Ok(token(Kind::OpenTagFull, 0, (1, 1, 0), 5, b"<?php"))));
    assert_eq!(all.next(), Some(Ok(token(Kind::LiteralInteger, 0, (1, 7, 6), 7, b"1"))));
    assert_eq!((all.next(), all.next(), all.next()), (Some(Err(refusal)), None, None));
    assert_eq!(tokens(script), Err(refusal));
    assert_eq!(refusal.reason(), Some(Reason::UnexpectedEndOfFile));
}

/// More tokens than are read at once; a script of no bytes, of as many as the library takes, and of one more.
#[test]
fn scripts_of_any_length() {
    let many = tokens(&[&b"<?php "[..], &b"1;".repeat(5_000)].concat()).unwrap();
    assert_eq!((many.len(), many[5_000].span.position), (5_001, 6 + 2 * 4_999));
    assert_eq!(tokens(b""), Ok(vec![Token { end: None, ..token(Kind::InlineHtml, 0, (1, 1, 0), 0, b"") }]));
    let most = vec![b'a'; limits::MOST_BYTES];
    assert_eq!(tokens(&most).unwrap()[0].value, most);
    assert_eq!(tokens(&[&most[..], b"a"].concat()), Err(Refusal { number: refusals::TOO_LARGE, span: Span::START }));
}

#[test]
fn kinds_have_their_numbers() {
    assert_eq!((Kind::InlineHtml.number(), Kind::Comment.number(), Kind::ALL.len()), (1, 21, 21));
    assert_eq!((Kind::of(10), Kind::of(0), Kind::of(22)), (Some(Kind::Variable), None, None));
    assert_eq!((kinds::QUESTION_ARROW, Kind::QuestionArrow.number()), (15, 15));
    assert_eq!(Kind::LiteralFloat.name(), "float");
    for (kind, number) in Kind::ALL.iter().zip(1..) {
        assert_eq!((kind.number(), Kind::of(number)), (number, Some(*kind)));
    }
}

#[test]
fn reasons_have_their_numbers() {
    assert_eq!(
        (Reason::UnexpectedEndOfFile.number(), Reason::StrayIndentation.number(), Reason::ALL.len()),
        (1, 13, 13)
    );
    assert_eq!((Reason::of(6), Reason::of(0), Reason::of(14)), (Some(Reason::Wait), None, None));
    assert_eq!(Reason::PoolFull.name(), "pool full");
    assert_eq!(Reason::Wait.advice(), "Lend more of the script, or announce its end.");
    for (reason, number) in Reason::ALL.iter().zip(1..) {
        assert_eq!((reason.number(), Reason::of(number)), (number, Some(*reason)));
    }
}

/// What is shown for a programmer tells where the reading is, and not all bytes.
#[test]
fn streams_and_tokens_can_be_shown() {
    let mut stream = Stream::new(Reading::Sheet);
    stream.feed(&[b'x'; 1_000]).unwrap();
    let shown = format!("{:?}", stream);
    assert!(
        shown.starts_with("Stream { source: 1000, end: More, session: Session {") && shown.len() < 400,
        "{}",
        shown
    );
    assert!(format!("{:?}", Tokens::new(b"", Reading::Ported)).starts_with("Tokens { stream: Stream { source: 0,"));
}
