//! Where the step ended that wrote a token: by hand, in random scripts, in lists and files, and as what a literal or a
//! comment is written with.

use cases::pieces;
use cases::random::Random;
use puretakoi::{
    file_to_list, find, kinds, list_to_file, records, End, Event, Frame, Kind, Listed, Reading, Record, Session, Span,
    Stream, Token, TokenList,
};

const TRIES: usize = 3_000;

/// Text, a tag, a string with a variable, a literal, a comment, a heredoc with a variable, a number.
const SCRIPT: &[u8] = b"a<?php \"b $c\" . 'd'; // e\n<<<F\ng$h\nF; 1.5 ?>i";

/// Kind, position and end of each token.
fn told(tokens: impl Iterator<Item = Token>) -> Vec<(Kind, u32, Option<u32>)> {
    tokens.map(|token| (token.kind().unwrap(), token.span.position, token.end)).collect()
}

/// All tokens of a step bear one end: text and tag, a heredoc's part and its variable. The first part of a
/// double-quoted string is a step of its own, up to what is interpolated.
#[test]
fn ends_by_hand() {
    let want = [
        (Kind::InlineHtml, 0, 6),
        (Kind::OpenTagFull, 1, 6),
        (Kind::StringPart, 7, 10),
        (Kind::Variable, 10, 12),
        (Kind::DoubleQuote, 12, 13),
        (Kind::LiteralSingleQuotedString, 16, 19),
        (Kind::Comment, 21, 25),
        (Kind::StringPart, 31, 34),
        (Kind::Variable, 31, 34),
        (Kind::EndDocStringNone, 34, 36),
        (Kind::LiteralFloat, 38, 41),
        (Kind::InlineHtml, 44, 45),
    ];
    let want = want.map(|(kind, position, end)| (kind, position, Some(end)));
    let tokens = TokenList::new(SCRIPT, Reading::Sheet);
    assert_eq!(told(tokens.iter().map(|listed| listed.token)), want);
    let ends: Vec<Option<u32>> = records(tokens.list()).map(|record| record.end).collect();
    assert_eq!(ends, want.map(|(_kind, _position, end)| end));
    assert_eq!(TokenList::new(b"", Reading::Sheet).get(0).map(|listed| listed.token.end), Some(None));
}

/// However a script is fed, a token bears the end of its own step.
#[test]
fn ends_of_a_script_in_parts() {
    let whole = told(TokenList::new(SCRIPT, Reading::Ported).iter().map(|listed| listed.token));
    for size in 1..SCRIPT.len() {
        let mut stream = Stream::new(Reading::Ported);
        let mut all = Vec::new();
        for part in SCRIPT.chunks(size) {
            stream.feed(part).unwrap();
            all.extend(given(&mut stream));
        }
        stream.finish();
        all.extend(given(&mut stream));
        assert_eq!(told(all.into_iter()), whole, "parts of {}", size);
    }
}

/// The tokens that a stream gives before it waits or ends.
fn given(stream: &mut Stream) -> Vec<Token> {
    let mut all = Vec::new();
    while let Event::Tokens(tokens) = stream.next() {
        all.extend(tokens);
    }
    all
}

/// What the tokens that are literals and comments are written with.
#[test]
fn written_by_hand() {
    let script = b"<?php 'it\\'s' \"\\x41\n\" 1_0 .5e3 /* \xFF */ # a\r\n \"$b\"";
    let tokens = TokenList::new(script, Reading::Sheet);
    let written: Vec<&[u8]> =
        tokens.iter().filter_map(|listed| listed.written(script)).map(|bytes| &script[bytes]).collect();
    let want: [&[u8]; 6] = [b"'it\\'s'", b"\"\\x41\n\"", b"1_0", b".5e3", b"/* \xFF */", b"# a\r"];
    assert_eq!(written, want);
    let values: Vec<Vec<u8>> = tokens.iter().map(|listed| listed.token.value).skip(1).take(4).collect();
    assert_eq!(values, [&b"it's"[..], b"A\n", b"10", b".5e3"]);
}

/// A record of a kind with a place and an end.
fn record(kind: u32, position: u32, end: u32) -> Record {
    records(&[kind, 0, 1, 1, position, 0, 3, end]).next().unwrap()
}

/// Other kinds have no such bytes; nor has a record without an end, or one that is of another script.
#[test]
fn what_is_not_written() {
    let script = b"<?php 'a';";
    for kind in (0..17).chain([22, u32::MAX]) {
        assert_eq!(record(kind, 6, 9).written(script), None, "kind {}", kind);
    }
    for kind in kinds::LITERAL_SINGLE_QUOTED_STRING..=kinds::COMMENT {
        assert_eq!(record(kind, 6, 9).written(script), Some(6..9), "kind {}", kind);
        assert_eq!(record(kind, 6, 10).written(script), Some(6..10));
        for (position, end) in [(6, 0), (0, 0), (6, 11), (9, 6), (u32::MAX, 9), (6, u32::MAX), (11, 11)] {
            assert_eq!(record(kind, position, end).written(script), None, "{} to {}", position, end);
        }
        assert_eq!(record(kind, 6, 9).written(b""), None);
    }
}

/// The readings of strings begin after the opening quote and end after the closing one, or before what is
/// interpolated; a number's begins where the number does.
#[test]
fn ends_of_readings() {
    let script = b"<?php 'a' \"b\" \"c$d\" 12";
    let mut session = Session::fresh(Reading::Ported);
    session.push(script, Frame::Scripting).unwrap();
    let (mut list, mut pool) = (vec![0; 64], vec![0; 64]);
    session.skip(script, 7).unwrap();
    session.read_single(script, End::Announced, &mut list, &mut pool).unwrap();
    session.skip(script, 2).unwrap();
    session.read_double(script, End::Announced, &mut list, &mut pool).unwrap();
    session.skip(script, 2).unwrap();
    session.read_double(script, End::Announced, &mut list, &mut pool).unwrap();
    session.set_span(Span { line: 1, column: 21, position: 20 });
    session.set_top(Frame::Scripting);
    session.read_number(script, End::Announced, &mut list, &mut pool).unwrap();
    let all: Vec<Record> = session.records(&list).collect();
    let told: Vec<_> = all.iter().map(|record| (record.kind, record.span.position, record.end)).collect();
    let (single, double) = (kinds::LITERAL_SINGLE_QUOTED_STRING, kinds::LITERAL_DOUBLE_QUOTED_STRING);
    assert_eq!(told[..2], [(single, 7, Some(9)), (double, 11, Some(13))]);
    assert_eq!(told[2..], [(kinds::STRING_PART, 15, Some(16)), (kinds::LITERAL_INTEGER, 20, Some(22))]);
    let written: Vec<_> = all.iter().map(|record| record.written(script)).collect();
    assert_eq!(written, [Some(7..9), Some(11..13), None, Some(20..22)]);
}

/// A file of an older writer has 0 in the place of each end, and tells of none; a new one tells all. Either goes to a
/// list and back as it is.
#[test]
fn old_and_new_files() {
    let list = TokenList::new(SCRIPT, Reading::Sheet).list().to_vec();
    let file = list_to_file(&list).unwrap();
    assert_eq!((file[28..32].to_vec(), file[5 * 32 + 28..6 * 32].to_vec()), (vec![6, 0, 0, 0], vec![19, 0, 0, 0]));
    let mut old = file.clone();
    old.chunks_mut(32).for_each(|record| record[28..].fill(0));
    for (file, is_old) in [(&file, false), (&old, true)] {
        let list = file_to_list(file).unwrap();
        assert_eq!(list_to_file(&list).as_ref(), Ok(file));
        assert!(records(&list).all(|record| record.end.is_none() == is_old));
        assert_eq!(find(&list, 12, 17).unwrap().end, Some(19).filter(|_| !is_old));
        let written: Vec<_> = records(&list).filter_map(|record| record.written(SCRIPT)).collect();
        assert_eq!(written, if is_old { vec![] } else { vec![16..19, 21..25, 38..41] });
    }
    let ends = |file: &[u8]| records(&file_to_list(file).unwrap()).map(|record| record.end).collect::<Vec<_>>();
    assert_eq!((ends(&old), ends(&file)[5]), (vec![None; 12], Some(19)));
}

/// A literal or a comment that is read alone is the same token: its kind, its detail and its value.
fn check_alone(listed: &Listed, written: &[u8]) {
    let script = [b"<?php ", written].concat();
    let alone = TokenList::new(&script, Reading::Ported);
    let end = script.len() as u32;
    let span = Span { line: 1, column: 7, position: 6 };
    assert_eq!((alone.len(), alone.end()), (2, Ok(end)), "{:?}", script);
    assert_eq!(alone.get(1).unwrap().token, Token { span, end: Some(end), ..listed.token.clone() }, "{:?}", script);
}

/// Ends never fall, those of a step are one, and a literal or a comment is what lies between its place and its end.
#[test]
fn random_scripts() {
    let mut random = Random::new(7);
    let mut count = [0; 22];
    for _ in 0..TRIES {
        let script = [pieces::script(&mut random), pieces::script(&mut random)].concat();
        let reading = if random.below(2) == 0 { Reading::Ported } else { Reading::Sheet };
        let tokens = TokenList::new(&script, reading);
        let mut last = 0;
        for listed in tokens.iter() {
            let end = listed.token.end.unwrap_or(0);
            assert_eq!(end as usize, listed.passed.end, "{:?}", script);
            assert!(last <= end && listed.token.span.position <= end, "{:?}", script);
            last = end;
            let written = listed.written(&script);
            assert_eq!(written.is_some(), listed.token.kind >= kinds::LITERAL_SINGLE_QUOTED_STRING, "{:?}", script);
            assert_eq!(written.clone().unwrap_or_else(|| listed.passed.clone()), listed.passed);
            count[listed.token.kind as usize] += 1;
            if let (Some(written), Frame::Scripting) = (written, listed.frame) {
                check_alone(&listed, &script[written]);
            }
        }
    }
    assert!(count[17..].iter().all(|count| *count > 10), "{:?}", count);
}
