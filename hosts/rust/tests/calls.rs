//! Calls on sessions: what they give, and that a refused call leaves everything as it was.

mod lent;

use lent::CHOICES;
use puretakoi::{
    kinds, limits, records, refusals, Choices, End, Frame, Label, Octal, Progress, Reading, Refusal, Session, Span,
};

/// Tables that are lent to a call.
struct Tables {
    list: Vec<u32>,
    pool: Vec<u8>,
}

impl Tables {
    fn new(places: usize, bytes: usize) -> Tables {
        Tables { list: vec![7; 8 * places], pool: vec![7; bytes] }
    }
}

type Call = fn(&mut Session, &[u8], &mut Tables) -> Result<(), Refusal>;

/// Every call with a session.
const CALLS: [(&str, Call); 8] = [
    ("walk", |session, src, to| session.walk(src, End::Announced, 9, &mut to.list, &mut to.pool).map(drop)),
    ("step", |session, src, to| session.step(src, End::Announced, &mut to.list, &mut to.pool).map(drop)),
    ("read_number", |session, src, to| session.read_number(src, End::Announced, &mut to.list, &mut to.pool).map(drop)),
    ("read_single", |session, src, to| session.read_single(src, End::Announced, &mut to.list, &mut to.pool).map(drop)),
    ("read_double", |session, src, to| session.read_double(src, End::Announced, &mut to.list, &mut to.pool).map(drop)),
    ("skip", |session, src, _| session.skip(src, 1)),
    ("push", |session, src, _| session.push(src, Frame::Scripting)),
    ("pop", |session, src, _| session.pop(src)),
];

fn refusal(number: u32, line: u32, column: u32, position: u32) -> Refusal {
    Refusal { number, span: Span { line, column, position } }
}

/// A session with Scripting on top, at the start of its script.
fn scripting() -> Session {
    let mut session = Session::fresh(Reading::Ported);
    session.push(b"", Frame::Scripting).unwrap();
    session
}

/// A fresh session's numbers with one of them changed, which makes them no session of `<?php 1;`.
fn wild() -> Vec<[u32; 199]> {
    let changes: &[(usize, u32)] = &[
        (0, 9),
        (1, 0),
        (1, 2),
        (2, 0),
        (2, 2),
        (3, 0),
        (3, 65),
        (3, u32::MAX),
        (6, 4),
        (6, u32::MAX),
        (7, 4),
        (7, 9),
        (7, 7),
    ];
    let mut all = vec![[0; 199], [u32::MAX; 199], [4; 199]];
    for (place, value) in changes {
        let mut numbers = *Session::fresh(Reading::Sheet).numbers();
        numbers[*place] = *value;
        all.push(numbers);
    }
    all
}

#[test]
fn wild_numbers_are_refused_and_stay() {
    for numbers in wild() {
        for (name, call) in CALLS {
            let mut session = Session::from_numbers(numbers);
            let mut tables = Tables::new(4, 16);
            let answer = call(&mut session, b"<?php 1;", &mut tables);
            assert_eq!(answer, Err(refusal(refusals::BAD_SESSION, 1, 1, 0)), "{} on {:?}", name, &numbers[..10]);
            assert_eq!(session.numbers(), &numbers, "{}", name);
            assert!(tables.list.iter().all(|n| *n == 7) && tables.pool.iter().all(|b| *b == 7), "{} wrote", name);
        }
    }
}

#[test]
fn looking_at_wild_numbers_gives_what_is_there() {
    let none = Session::from_numbers([u32::MAX; 199]);
    assert_eq!((none.top(), none.frame(0), none.frame(usize::MAX), none.reading()), (None, None, None, None));
    assert_eq!(none.records(&[1; 17]).count(), 2);
    assert_eq!(Session::from_numbers([0; 199]).top(), None);
    assert!(!format!("{:?}", none).is_empty());
}

#[test]
fn a_fresh_session() {
    let session = Session::fresh(Reading::Sheet);
    assert_eq!((session.position(), session.line(), session.column()), (0, 1, 1));
    assert_eq!((session.depth(), session.tokens(), session.bytes()), (1, 0, 0));
    assert_eq!(
        (session.reading(), session.top(), session.frame(1)),
        (Some(Reading::Sheet), Some(Frame::Initial), None)
    );
    assert_eq!(Session::fresh(Reading::Ported).reading(), Some(Reading::Ported));
}

#[test]
fn choices_are_flags() {
    for (number, choices) in (0..).zip(CHOICES) {
        let mut session = Session::fresh(choices);
        assert_eq!((session.numbers()[6], session.choices()), (number, Some(choices)));
        assert_eq!((session.reading(), session.octals()), (Some(choices.nowdocs), Some(choices.octals)));
        assert_eq!((session.skip(b"", 0), session.numbers()[6]), (Ok(()), number));
    }
    for number in [4, 5, 6, 7, 8, 1 << 31, u32::MAX] {
        let mut numbers = *Session::fresh(Reading::Ported).numbers();
        numbers[6] = number;
        let mut session = Session::from_numbers(numbers);
        assert_eq!((session.choices(), session.reading(), session.octals()), (None, None, None));
        assert_eq!(session.skip(b"", 0).map_err(|refusal| refusal.number), Err(refusals::BAD_SESSION));
    }
}

/// What is not chosen is as the Rust has it.
#[test]
fn one_choice_stands_for_all() {
    let [ported, sheet, manual, _both] = CHOICES;
    assert_eq!((Choices::from(Reading::Ported), Choices::from(Octal::Rust)), (ported, ported));
    assert_eq!((Choices::from(Reading::Sheet), Choices::from(Octal::Manual)), (sheet, manual));
    assert_eq!(Choices::default(), ported);
    assert_eq!(Choices { nowdocs: Reading::Sheet, ..Choices::default() }, sheet);
    assert_eq!(Session::fresh(Octal::Manual), Session::fresh(manual));
}

/// Document 01's sample: `<?php 'a' 12;⏎`.
#[test]
fn steps_write_behind_the_marks() {
    let src = b"<?php 'a' 12;\n";
    let mut session = Session::fresh(Reading::Ported);
    let mut to = Tables::new(3, 8);
    while session.step(src, End::Announced, &mut to.list, &mut to.pool) == Ok(Progress::Done) {}
    let found: Vec<_> =
        session.records(&to.list).map(|r| (r.kind, r.span.line, r.span.column, r.span.position)).collect();
    let expected = [
        (kinds::OPEN_TAG_FULL, 1, 1, 0),
        (kinds::LITERAL_SINGLE_QUOTED_STRING, 1, 7, 6),
        (kinds::LITERAL_INTEGER, 1, 11, 10),
    ];
    assert_eq!(found, expected);
    assert_eq!((session.tokens(), session.bytes(), session.position(), session.line()), (3, 8, 14, 2));
    assert_eq!(&to.pool, b"<?phpa12");
    let values: Vec<_> = records(&to.list).map(|record| record.value(&to.pool)).collect();
    assert_eq!(values, [Some(&b"<?php"[..]), Some(&b"a"[..]), Some(&b"12"[..])]);
    session.empty_tables();
    assert_eq!((session.tokens(), session.bytes(), session.position()), (0, 0, 14));
}

#[test]
fn full_tables_are_refused_and_stay() {
    for (places, bytes, number) in
        [(1, 8, refusals::LIST_FULL), (2, 5, refusals::POOL_FULL), (0, 0, refusals::LIST_FULL)]
    {
        let mut session = Session::fresh(Reading::Ported);
        let mut to = Tables::new(places, bytes);
        let answer = session.step(b"a<?php", End::Announced, &mut to.list, &mut to.pool);
        assert_eq!(answer, Err(refusal(number, 1, 1, 0)));
        assert_eq!(session, Session::fresh(Reading::Ported));
        assert!(to.list.iter().all(|n| *n == 7) && to.pool.iter().all(|b| *b == 7));
    }
}

/// The worked sheets d, e, i and j of document 01.
#[test]
fn the_three_readings() {
    type Read = fn(&mut Session, &[u8], End, &mut [u32], &mut [u8]) -> Result<Progress, Refusal>;
    let sheets: [(Read, &[u8], u32, &[u8], u32); 5] = [
        (Session::read_single, b"a\\'b\\n'", kinds::LITERAL_SINGLE_QUOTED_STRING, b"a'b\\n", 7),
        (Session::read_double, b"\\377\"", kinds::LITERAL_DOUBLE_QUOTED_STRING, b"\xff", 5),
        (Session::read_number, b"1__0", kinds::LITERAL_INTEGER, b"1", 1),
        (Session::read_number, b"0x", kinds::LITERAL_INTEGER, b"0x", 2),
        (Session::read_number, b"1.5e+x", kinds::LITERAL_FLOAT, b"1.5e+", 5),
    ];
    for (read, text, kind, value, end) in sheets {
        let mut session = scripting();
        let mut to = Tables::new(2, 16);
        assert_eq!(read(&mut session, text, End::Announced, &mut to.list, &mut to.pool), Ok(Progress::Done));
        let record = session.records(&to.list).next().unwrap();
        assert_eq!((record.kind, record.value(&to.pool), session.position()), (kind, Some(value), end));
    }
}

#[test]
fn more_is_waited_for_until_the_end_is_announced() {
    let mut to = Tables::new(2, 16);
    let mut session = scripting();
    let more = session.read_number(b"1e", End::More, &mut to.list, &mut to.pool);
    assert_eq!(more, Err(refusal(refusals::WAIT, 1, 1, 0)));
    assert_eq!(session, scripting());
    assert_eq!(session.read_number(b"1e", End::Announced, &mut to.list, &mut to.pool), Ok(Progress::Done));
    assert_eq!(session.position(), 1);
}

#[test]
fn skip_push_and_pop() {
    let src = b"ab\nEOT";
    let mut session = scripting();
    assert_eq!(session.skip(src, 5), Ok(()));
    assert_eq!(session.span(), Span { line: 2, column: 3, position: 5 });
    assert_eq!(session.skip(src, 3), Err(refusal(refusals::OUT_OF_PLACE, 2, 3, 5)));
    assert_eq!(session.skip(src, usize::MAX), Err(refusal(refusals::OUT_OF_PLACE, 2, 3, 5)));
    let block = Frame::Nowdoc(Label { start: 3, len: 3 });
    assert_eq!(session.push(src, block), Ok(()));
    assert_eq!((session.top(), session.frame(1), session.depth()), (Some(block), Some(Frame::Scripting), 3));
    let no_label = Frame::Heredoc(Label { start: u32::MAX, len: 1 });
    assert_eq!(session.push(src, no_label), Err(refusal(refusals::OUT_OF_PLACE, 2, 3, 5)));
    assert_eq!((session.pop(src), session.pop(src)), (Ok(()), Ok(())));
    assert_eq!(session.pop(src), Err(refusal(refusals::OUT_OF_PLACE, 2, 3, 5)));
}

/// Each frame that can be pushed stands on top as it was pushed, up to the 64th.
#[test]
fn frames_come_back_as_they_were_pushed() {
    let label = Label { start: 1, len: 2 };
    let frames = [
        Frame::Initial,
        Frame::Scripting,
        Frame::DoubleQuote,
        Frame::ShellExec,
        Frame::Heredoc(label),
        Frame::Nowdoc(label),
        Frame::LookingForVarname,
        Frame::LookingForProperty,
        Frame::VarOffset,
    ];
    let mut session = Session::fresh(Reading::Ported);
    for frame in frames.iter().cycle().take(limits::MOST_FRAMES - 1) {
        assert_eq!(session.push(b" EO", *frame), Ok(()));
        assert_eq!(session.top(), Some(*frame));
    }
    assert_eq!(session.push(b" EO", Frame::Initial), Err(refusal(refusals::STACK_FULL, 1, 1, 0)));
}

#[test]
fn too_much_is_refused() {
    let large = vec![b' '; limits::MOST_BYTES + 1];
    let mut session = Session::fresh(Reading::Ported);
    for (name, call) in CALLS {
        let answer = call(&mut session, &large, &mut Tables::new(1, 1));
        assert_eq!(answer, Err(refusal(refusals::TOO_LARGE, 1, 1, 0)), "{}", name);
    }
    let (mut list, mut pool) = (vec![0; 8 * (limits::MOST_TOKENS + 1)], vec![0; 8]);
    let answer = session.step(b"", End::Announced, &mut list, &mut pool);
    assert_eq!(answer, Err(refusal(refusals::TOO_LARGE, 1, 1, 0)));
}
