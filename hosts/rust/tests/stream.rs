//! Scripts that come in parts through a stream.

use puretakoi::{kinds, limits, refusals, Event, Reading, Refusal, Span, Stream, Token};

/// The tokens and the last event of a script that is fed in parts of a size.
fn read(script: &[u8], size: usize, reading: Reading) -> (Vec<Token>, Event) {
    let mut stream = Stream::new(reading);
    let mut parts = script.chunks(size);
    let mut tokens = Vec::new();
    loop {
        match stream.next() {
            Event::Tokens(more) => tokens.extend(more),
            Event::Wait => match parts.next() {
                Some(part) => stream.feed(part).unwrap(),
                None => stream.finish(),
            },
            last => return (tokens, last),
        }
    }
}

fn refused(number: u32, line: u32, column: u32, position: u32) -> Event {
    Event::Refused(Refusal { number, span: Span { line, column, position } })
}

/// The worked sheet o of document 01, in a script: the rows lose the closing line's indentation.
#[test]
fn a_sheet_in_parts_of_any_size() {
    let script = b"<?php <<<'EOT'\n  ab\n   c\n\n  EOT;";
    for size in [1, 2, 3, 7, 64] {
        let (tokens, last) = read(script, size, Reading::Sheet);
        let found: Vec<_> = tokens.iter().map(|token| (token.kind, token.detail, &token.value[..])).collect();
        let expected = [
            (kinds::OPEN_TAG_FULL, 0, &b"<?php"[..]),
            (kinds::STRING_PART, 0, &b"ab\n c\n"[..]),
            (kinds::END_DOC_STRING_SPACE, 2, &b"EOT"[..]),
        ];
        assert_eq!(found, expected, "parts of {}", size);
        assert_eq!(tokens[1].span, Span { line: 2, column: 1, position: 15 });
        assert_eq!(tokens[2].kind_name(), "end of text block, indented by spaces");
        assert_eq!(last, Event::Finished(32));
    }
}

/// Like the worked sheet p of document 01, in a script.
#[test]
fn a_stray_row_is_refused_in_the_sheet_reading_alone() {
    let script = b"<?php <<<'EOT'\n  a\n   EOT;";
    assert_eq!(read(script, 5, Reading::Sheet).1, refused(refusals::STRAY_INDENTATION, 2, 3, 17));
    assert_eq!(read(script, 5, Reading::Ported).1, Event::Finished(26));
}

/// A label at the end of a part waits for a byte more, or for the announced end; in the ported reading it closes at once.
#[test]
fn a_part_that_ends_in_the_label() {
    let first = b"<?php <<<'EOT'\nab\nEOT";
    let block = |behind: &[u8]| {
        let mut stream = Stream::new(Reading::Sheet);
        stream.feed(first).unwrap();
        assert!(matches!(stream.next(), Event::Tokens(tokens) if tokens.len() == 1));
        assert_eq!(stream.next(), Event::Wait);
        stream.feed(behind).unwrap();
        stream
    };
    let text = |event| match event {
        Event::Tokens(tokens) => tokens[0].value.clone(),
        other => panic!("{:?}", other),
    };
    assert_eq!(text(block(b";").next()), b"ab");
    let mut longer = block(b"s");
    assert_eq!(longer.next(), Event::Wait);
    longer.feed(b"trasse\nEOT").unwrap();
    assert_eq!(longer.next(), Event::Wait);
    longer.finish();
    assert_eq!(text(longer.next()), b"ab\nEOTstrasse");
    let mut ported = Stream::new(Reading::Ported);
    ported.feed(first).unwrap();
    assert!(matches!(ported.next(), Event::Tokens(tokens) if tokens.len() == 3 && tokens[1].value == b"ab"));
}

/// A comment is a token of all its bytes: a quote in it opens no string. `#[` begins none.
#[test]
fn comments_in_parts_of_any_size() {
    let script = b"<?php // it's\n#[a] # b?><?= /* \"\n?> */ 'c' /**/";
    for size in [1, 2, 3, 7, 64] {
        let (tokens, last) = read(script, size, Reading::Sheet);
        let found: Vec<_> = tokens
            .iter()
            .map(|token| (token.kind, token.span.line, token.span.column, token.span.position, &token.value[..]))
            .collect();
        let expected = [
            (kinds::OPEN_TAG_FULL, 1, 1, 0, &b"<?php"[..]),
            (kinds::COMMENT, 1, 7, 6, b"// it's"),
            (kinds::COMMENT, 2, 6, 19, b"# b"),
            (kinds::OPEN_TAG_ECHO, 2, 11, 24, b"<?="),
            (kinds::COMMENT, 2, 15, 28, b"/* \"\n?> */"),
            (kinds::LITERAL_SINGLE_QUOTED_STRING, 3, 7, 39, b"c"),
            (kinds::COMMENT, 3, 11, 43, b"/**/"),
        ];
        assert_eq!(found, expected, "parts of {}", size);
        assert_eq!(last, Event::Finished(47));
        assert_eq!((read(script, size, Reading::Ported).0, tokens[1].kind_name()), (tokens, "comment"));
    }
}

/// A comment waits for its end. At the announced end a line's comment is over, and one that `/*` opened is refused.
#[test]
fn comments_that_wait() {
    for (part, end, refused_at) in [("// kerb", "?>", None), ("# kerb?", "\n", None), ("/* kerb *", "/", Some(15))] {
        let mut stream = Stream::new(Reading::Sheet);
        stream.feed(format!("<?php {}", part).as_bytes()).unwrap();
        assert!(matches!(stream.next(), Event::Tokens(tokens) if tokens.len() == 1), "{}", part);
        assert_eq!(stream.next(), Event::Wait, "{}", part);
        for byte in end.bytes().take(end.len() - 1) {
            stream.feed(&[byte]).unwrap();
            assert_eq!(stream.next(), Event::Wait, "{}", part);
        }
        stream.feed(&end.as_bytes()[end.len() - 1..]).unwrap();
        let value = if end == "/" { format!("{}/", part) } else { part.to_string() };
        match stream.next() {
            Event::Tokens(tokens) => {
                assert_eq!((tokens[0].kind, &tokens[0].value[..]), (kinds::COMMENT, value.as_bytes()))
            }
            other => panic!("{}: {:?}", part, other),
        }
        let (tokens, last) = read(format!("<?php {}", part).as_bytes(), 3, Reading::Sheet);
        match refused_at {
            Some(at) => {
                assert_eq!((tokens.len(), last), (1, refused(refusals::UNEXPECTED_END_OF_FILE, 1, at + 1, at)))
            }
            None => assert_eq!((&tokens[1].value[..], last), (part.as_bytes(), Event::Finished(6 + part.len() as u32))),
        }
    }
}

#[test]
fn the_last_event_comes_again_and_nothing_can_be_added() {
    let mut stream = Stream::new(Reading::Ported);
    assert_eq!(stream.next(), Event::Wait);
    stream.feed(b"row").unwrap();
    assert_eq!(stream.next(), Event::Wait);
    stream.finish();
    assert_eq!(stream.feed(b"s"), Err(Refusal { number: refusals::OUT_OF_PLACE, span: Span::START }));
    assert_eq!(stream.source(), b"row");
    match stream.next() {
        Event::Tokens(tokens) => assert_eq!(tokens[0].value, b"row"),
        other => panic!("{:?}", other),
    }
    for _ in 0..2 {
        assert_eq!(stream.next(), Event::Finished(3));
    }
    assert_eq!(stream.session().position(), 3);
}

/// Tokens that came before a wait are given before it, and the wait comes again until something is fed.
#[test]
fn a_wait_stands_behind_its_tokens() {
    let mut stream = Stream::new(Reading::Ported);
    stream.feed(b"<?php 1; 'ker").unwrap();
    match stream.next() {
        Event::Tokens(tokens) => assert_eq!(tokens.len(), 2),
        other => panic!("{:?}", other),
    }
    assert_eq!((stream.next(), stream.next()), (Event::Wait, Event::Wait));
    assert_eq!(stream.session().position(), 9);
    stream.feed(b"b'").unwrap();
    match stream.next() {
        Event::Tokens(tokens) => assert_eq!(tokens[0].value, b"kerb"),
        other => panic!("{:?}", other),
    }
    stream.finish();
    assert_eq!(stream.next(), Event::Finished(15));
}

/// More tokens than are read at once, and a refusal behind them.
#[test]
fn many_tokens_come_in_their_order() {
    let script = [&b"<?php "[..], &b"1;".repeat(5_000), b"'"].concat();
    for size in [100, usize::MAX] {
        let (tokens, last) = read(&script, size, Reading::Ported);
        let places: Vec<u32> = tokens.iter().skip(1).map(|token| token.span.position).collect();
        assert_eq!(places, (0..5_000).map(|place| 6 + 2 * place).collect::<Vec<_>>());
        assert_eq!(last, refused(refusals::UNEXPECTED_END_OF_FILE, 1, 10_008, 10_007));
    }
}

/// A quoted string of as many bytes as the library takes, and of one more.
#[test]
fn the_largest_script_and_one_byte_more() {
    let script = |size: usize| [&b"<?php '"[..], &vec![b'\n'; size - 8], b"'"].concat();
    for size in [4_096, limits::MOST_BYTES, usize::MAX] {
        let (tokens, last) = read(&script(limits::MOST_BYTES), size, Reading::Ported);
        assert_eq!((tokens.len(), tokens[1].value.len(), last), (2, 65_528, Event::Finished(65_536)));
        let (tokens, last) = read(&script(limits::MOST_BYTES + 1), size, Reading::Ported);
        assert_eq!((tokens.len(), last), (1, refused(refusals::TOO_LARGE, 1, 1, 0)));
    }
}

/// What is too large by far is not kept, and what stands before is read.
#[test]
fn a_script_too_large_by_far() {
    let script = [&b"<?php 12;"[..], &vec![b';'; 300_000]].concat();
    for size in [7_000, usize::MAX] {
        let (tokens, last) = read(&script, size, Reading::Ported);
        assert_eq!((tokens.len(), last), (2, refused(refusals::TOO_LARGE, 1, 1, 0)));
    }
    let mut stream = Stream::new(Reading::Ported);
    stream.feed(&script).unwrap();
    stream.feed(&script).unwrap();
    assert_eq!(stream.source().len(), limits::MOST_BYTES + 1);
}

/// An open text of more than 4,096 bytes is read again when it has doubled or at the end; a shorter one at once.
#[test]
fn a_long_text_is_looked_at_when_it_has_doubled() {
    let open = |rows: usize| {
        let mut stream = Stream::new(Reading::Sheet);
        stream.feed(b"<?php <<<'EOT'\n").unwrap();
        stream.feed(&b"kerb\n".repeat(rows)).unwrap();
        assert!(matches!(stream.next(), Event::Tokens(tokens) if tokens.len() == 1));
        assert_eq!(stream.next(), Event::Wait);
        stream.feed(b"EOT;\n").unwrap();
        stream
    };
    let lengths = |event| match event {
        Event::Tokens(tokens) => tokens.iter().map(|token| token.value.len()).collect::<Vec<_>>(),
        other => panic!("{:?}", other),
    };
    assert_eq!(lengths(open(819).next()), [4094, 3]);
    let mut long = open(820);
    assert_eq!(long.next(), Event::Wait);
    long.feed(&[b' '; 4094]).unwrap();
    assert_eq!(long.next(), Event::Wait);
    long.feed(b" ").unwrap();
    assert_eq!(lengths(long.next()), [4099, 3]);
    let mut ended = open(820);
    ended.finish();
    assert_eq!(lengths(ended.next()), [4099, 3]);
}

/// One that is still open when the script is too long is refused as any is.
#[test]
fn a_long_text_in_too_long_a_script() {
    let mut stream = Stream::new(Reading::Sheet);
    let mut fed = 0;
    while fed < limits::MOST_BYTES {
        stream.feed(if fed == 0 { b"<?php /*" } else { b"kerbkerb" }).unwrap();
        fed += 8;
        while matches!(stream.next(), Event::Tokens(_)) {}
        assert_eq!(stream.next(), Event::Wait);
    }
    stream.feed(b"k").unwrap();
    assert_eq!(stream.next(), refused(refusals::TOO_LARGE, 1, 1, 0));
}
