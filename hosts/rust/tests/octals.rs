//! Octal escapes over 377, `\400` to `\777`: refused with 3 as by the Rust, or the byte that the manual has, in all
//! three texts that have escapes. Every value here was worked by hand.

use puretakoi::{
    kinds, refusals, Choices, End, Event, Frame, Kind, Label, Octal, Progress, Reading, Reason, Refusal, Session, Span,
    Stream, TokenList, Tokens,
};

/// A script's values of string parts and double-quoted strings, by the manual's octals.
fn values(script: &[u8]) -> Vec<Vec<u8>> {
    let tokens: Result<Vec<_>, _> = Tokens::new(script, Octal::Manual).collect();
    let is_text = |kind| [Some(Kind::StringPart), Some(Kind::LiteralDoubleQuotedString)].contains(&kind);
    tokens.unwrap().into_iter().filter(|token| is_text(token.kind())).map(|token| token.value).collect()
}

fn refused(position: u32) -> Refusal {
    let span = Span { line: 1, column: position + 1, position };
    Refusal { number: refusals::INVALID_OCTAL_ESCAPE, span }
}

/// The Rust's octals are refused at this line, column and position, right after the third digit; the manual's have
/// these values.
fn check(script: &[u8], place: [u32; 3], wanted: &[&[u8]]) {
    let [line, column, position] = place;
    let refusal = Refusal { number: refusals::INVALID_OCTAL_ESCAPE, span: Span { line, column, position } };
    assert_eq!(Tokens::new(script, Octal::Rust).last(), Some(Err(refusal)), "{:?}", script);
    assert_eq!(values(script), wanted, "{:?}", script);
}

#[test]
fn in_each_text() {
    check(b"<?php \"kerb \\400\";", [1, 17, 16], &[b"kerb \0"]);
    check(b"<?php \"\\400$a\";", [1, 12, 11], &[b"\0"]);
    check(b"<?php \"$a\\777b\";", [1, 14, 13], &[b"", b"\xffb"]);
    check(b"<?php <<<E\na\\400\nE;", [2, 6, 16], &[b"a\0"]);
    check(b"<?php <<<E\n$a\\501 $b\nE;", [2, 7, 17], &[b"A "]);
    check(b"<?php \"{$a[\"\\400\"]}\";", [1, 17, 16], &[b"", b"\0"]);
}

/// An escape has one to three digits, and only one over 377 hangs on the choice.
#[test]
fn every_number_of_three_digits() {
    for number in 0..512 {
        let script = format!("<?php \"\\{:03o}\";", number);
        assert_eq!(values(script.as_bytes()), [[(number % 256) as u8]], "{}", script);
        let rust = Tokens::new(script.as_bytes(), Octal::Rust).last().unwrap();
        match number {
            0..=255 => assert_eq!(rust.unwrap().value, [number as u8], "{}", script),
            _ => assert_eq!(rust, Err(refused(11)), "{}", script),
        }
    }
    assert_eq!(values(b"<?php \"\\4000\\7778\\40\";"), [b"\x000\xff8 "]);
}

/// What the manual's byte is begins and ends nothing: `\442` is `"`, `\444` is `$`, `\573` is `{`, `\534` is `\`.
#[test]
fn the_byte_begins_nothing() {
    assert_eq!(values(b"<?php \"\\442 \\444a \\573\\444b} \\534n\";"), [b"\" $a {$b} \\n"]);
    assert_eq!(values(b"<?php <<<E\n\\412E;\\444a\nE;"), [b"\nE;$a"]);
}

/// Backticks, single quotes and nowdocs have no escapes of this kind.
#[test]
fn where_no_escape_is_read() {
    for octals in [Octal::Rust, Octal::Manual] {
        let script = b"<?php '\\400' . `\\400` . <<<'A'\n\\400\nA;";
        let tokens: Vec<_> = Tokens::new(script, octals).map(|token| token.unwrap()).collect();
        assert_eq!(tokens.iter().filter(|token| token.value == b"\\400").count(), 3);
    }
}

type Call = fn(&mut Session, &[u8], &mut [u32], &mut [u8]) -> Result<(), Refusal>;

/// Every call, on a session with Scripting on top at the start of a script that it takes.
const CALLS: [(&str, &[u8], Call); 8] = [
    ("walk", b"\"\\400\"", |session, src, list, pool| session.walk(src, End::Announced, 9, list, pool).map(drop)),
    ("step", b"\"\\400\"", |session, src, list, pool| session.step(src, End::Announced, list, pool).map(drop)),
    ("read_double", b"\\400\"", |session, src, list, pool| {
        session.read_double(src, End::Announced, list, pool).map(drop)
    }),
    ("read_single", b"\\400'", |session, src, list, pool| {
        session.read_single(src, End::Announced, list, pool).map(drop)
    }),
    ("read_number", b"400", |session, src, list, pool| session.read_number(src, End::Announced, list, pool).map(drop)),
    ("skip", b"400", |session, src, _list, _pool| session.skip(src, 3)),
    ("push", b"400", |session, src, _list, _pool| session.push(src, Frame::DoubleQuote)),
    ("pop", b"400", |session, src, _list, _pool| session.pop(src)),
];

/// The choice stays through every call, done or refused; the first three are refused by the Rust's octals.
#[test]
fn every_call_keeps_the_choice() {
    for nowdocs in [Reading::Ported, Reading::Sheet] {
        for (number, octals) in [(0, Octal::Rust), (2, Octal::Manual)] {
            let choices = Choices { nowdocs, octals };
            let number = number + u32::from(nowdocs == Reading::Sheet);
            for (place, (name, src, call)) in CALLS.into_iter().enumerate() {
                let mut session = Session::fresh(choices);
                session.push(src, Frame::Scripting).unwrap();
                let answer = call(&mut session, src, &mut [0; 16], &mut [0; 8]);
                let is_refused = octals == Octal::Rust && place < 3;
                let wanted = if is_refused { Err(refusals::INVALID_OCTAL_ESCAPE) } else { Ok(()) };
                assert_eq!(answer.map_err(|refusal| refusal.number), wanted, "{} by {:?}", name, choices);
                assert_eq!((session.numbers()[6], session.choices()), (number, Some(choices)), "{}", name);
                let refused = call(&mut session, &[b'a'; 65_537], &mut [0; 16], &mut [0; 8]);
                assert_eq!(refused.map_err(|refusal| refusal.number), Err(refusals::TOO_LARGE), "{}", name);
                assert_eq!(session.choices(), Some(choices), "{}", name);
            }
        }
    }
}

/// The public double reading: its place and value by both choices.
#[test]
fn the_double_reading() {
    let src = b"a\\400b\"";
    let (mut list, mut pool) = ([0; 16], [9; 8]);
    let mut session = Session::fresh(Octal::Rust);
    session.push(src, Frame::Scripting).unwrap();
    let before = session.clone();
    let answer = session.read_double(src, End::Announced, &mut list, &mut pool);
    assert_eq!((answer, &session, list, pool), (Err(refused(5)), &before, [0; 16], [9; 8]));
    session.set_choices(Choices::from(Octal::Manual));
    assert_eq!(session.read_double(src, End::Announced, &mut list, &mut pool), Ok(Progress::Done));
    let record = session.records(&list).next().unwrap();
    assert_eq!((record.kind, record.value(&pool)), (kinds::LITERAL_DOUBLE_QUOTED_STRING, Some(&b"a\0b"[..])));
    assert_eq!((session.position(), record.end), (7, Some(7)));
}

/// After a refusal the host chooses the manual's octals, and goes on from the same place; and back again.
#[test]
fn the_host_changes_the_choice_between_steps() {
    let src = b"<?php \"\\400\" . \"\\401\" . \"\\402\";";
    let (mut list, mut pool) = (vec![0; 80], vec![0; 40]);
    let mut session = Session::fresh(Reading::Sheet);
    let walk = |session: &mut Session, most, list: &mut [u32], pool: &mut [u8]| {
        session.walk(src, End::Announced, most, list, pool)
    };
    assert_eq!(walk(&mut session, u32::MAX, &mut list, &mut pool), Err(refused(11)));
    assert_eq!((session.position(), session.tokens()), (6, 1));
    let choices = session.choices().unwrap();
    session.set_choices(Choices { octals: Octal::Manual, ..choices });
    assert_eq!((session.octals(), session.reading()), (Some(Octal::Manual), Some(Reading::Sheet)));
    while session.tokens() < 3 {
        assert_eq!(walk(&mut session, 1, &mut list, &mut pool), Ok(Progress::Done));
    }
    session.set_choices(choices);
    assert_eq!(walk(&mut session, u32::MAX, &mut list, &mut pool), Err(refused(29)));
    assert_eq!((session.position(), session.octals()), (24, Some(Octal::Rust)));
    let values: Vec<_> = session.records(&list).map(|record| record.value(&pool).unwrap()).collect();
    assert_eq!(values, [&b"<?php"[..], b"\0", b"\x01"]);
}

/// With more announced two digits wait by both choices. Three are refused at once by the Rust's; by the manual's their
/// byte is settled, and the open string waits.
#[test]
fn with_more_announced() {
    let number = |src: &[u8], octals| {
        let mut session = Session::fresh(octals);
        session.push(src, Frame::Scripting).unwrap();
        session.read_double(src, End::More, &mut [0; 16], &mut [0; 8]).map_err(|refusal| refusal.number)
    };
    for octals in [Octal::Rust, Octal::Manual] {
        assert_eq!(number(b"\\40", octals), Err(refusals::WAIT), "{:?}", octals);
    }
    assert_eq!(number(b"\\400", Octal::Rust), Err(refusals::INVALID_OCTAL_ESCAPE));
    assert_eq!(number(b"\\400", Octal::Manual), Err(refusals::WAIT));
    assert_eq!(number(b"\\400\"", Octal::Manual), Ok(Progress::Done));
}

/// A stream that is fed a byte at a time, and a list of tokens, read by the choice that they are made with.
#[test]
fn streams_and_lists() {
    let script = b"<?php \"a\\777\";";
    let last = |octals| {
        let (mut stream, mut values, mut bytes) = (Stream::new(octals), Vec::new(), script.iter());
        loop {
            match stream.next() {
                Event::Tokens(tokens) => values.extend(tokens.into_iter().map(|token| token.value)),
                Event::Wait => match bytes.next() {
                    Some(byte) => stream.feed(&[*byte]).unwrap(),
                    None => stream.finish(),
                },
                last => return (values, last),
            }
        }
    };
    assert_eq!(last(Octal::Rust), (vec![b"<?php".to_vec()], Event::Refused(refused(12))));
    assert_eq!(last(Octal::Manual), (vec![b"<?php".to_vec(), b"a\xff".to_vec()], Event::Finished(14)));
    let list = TokenList::new(script, Octal::Manual);
    let literal = list.at(8).unwrap().listed;
    assert_eq!((literal.token.value.clone(), literal.written(script)), (b"a\xff".to_vec(), Some(6..13)));
    assert_eq!((list.end(), list.session().octals()), (Ok(14), Some(Octal::Manual)));
    assert_eq!(TokenList::new(script, Octal::Rust).end(), Err(refused(12)));
}

/// A heredoc's frame that a host pushed reads by the choice too. A break that an escape wrote goes before a variable.
#[test]
fn a_pushed_heredoc() {
    let src = b"E\na\\412$b\nE";
    for (octals, wanted) in [(Octal::Rust, Err(refusals::INVALID_OCTAL_ESCAPE)), (Octal::Manual, Ok(Progress::Done))] {
        let (mut session, mut list, mut pool) = (Session::fresh(octals), [0; 16], [0; 8]);
        session.skip(src, 2).unwrap();
        session.push(src, Frame::Heredoc(Label { start: 0, len: 1 })).unwrap();
        let answer = session.step(src, End::Announced, &mut list, &mut pool);
        assert_eq!(answer.map_err(|refusal| refusal.number), wanted);
        let values: Vec<_> = session.records(&list).map(|record| record.value(&pool).unwrap()).collect();
        assert_eq!(values, if wanted.is_ok() { vec![&b"a"[..], b"$b"] } else { Vec::new() });
    }
}

/// The refusal tells the byte that the manual's octals give.
#[test]
fn the_byte_of_a_refused_escape() {
    let byte = |script: &[u8]| Tokens::new(script, Octal::Rust).last().unwrap().unwrap_err().octal_byte(script);
    let cases = [("\\400", 0), ("\\401", 1), ("\\477", 63), ("\\501", 65), ("\\600", 128), ("\\777", 255)];
    for (escape, wanted) in cases {
        for (front, behind) in [("\"", "\""), ("\"$a ", "1\""), ("\"\\\\", "\""), ("<<<E\n", "\nE;")] {
            let script = format!("<?php {}{}{}", front, escape, behind);
            assert_eq!(byte(script.as_bytes()), Some(wanted), "{}", script);
        }
    }
    // Other refusals have none.
    assert_eq!(byte(b"<?php \"\\u{D800}\";"), None);
    assert_eq!(byte(b"<?php '\\400"), None);
}

/// A script that is not the refused one may have no such escape there: the digits are looked at.
#[test]
fn the_byte_in_another_script() {
    for (script, wanted) in [
        (&b"\\501"[..], Some(65)),
        (b"a\\50", None),
        (b"\\377", None),
        (b"\\508", None),
        (b"\\580", None),
        (b"/501", None),
        (b"501", None),
        (b"", None),
    ] {
        assert_eq!(refused(4).octal_byte(script), wanted, "{:?}", script);
    }
    assert_eq!((refused(3).octal_byte(b"\\501"), refused(9).octal_byte(b"\\501")), (None, None));
}

#[test]
fn the_advice_names_the_choice() {
    let advice = "Write at most 377, or choose octals as the manual has them: the low eight bits are then the byte.";
    assert_eq!(Reason::InvalidOctalEscape.advice(), advice);
}
