//! The reader passes lines in walks: it must give every text block, every comment and the opening of every text as single steps do.

use std::collections::{HashMap, HashSet};
use std::fs;

use cases::pieces;
use cases::random::Random;
use command::reading::reader::Reader;
use command::reading::remark::Remark;
use puretakoi::{kinds, Choices, End, Frame, Octal, Progress, Reading, Refusal, Session, Span};

/// What is put into scripts: what opens or closes a text, a comment, a block or a brace.
const MARKS: &[&str] = &[
    "{",
    "}",
    "}{",
    "`",
    "\"",
    "'",
    "<<<A\n",
    "<<<'A'\n",
    "<<<'A'\r\n",
    "\nA;\n",
    "\n  A\n",
    "\n  Ax\n",
    " ",
    "\n",
    "$a[",
    "]",
    "${",
    "{$",
    "?>",
    "<?php ",
    "x",
    "12",
    "\\400",
    "$a->b",
    "//",
    "#",
    "#[",
    "/*",
    "*/",
    "// it's\n",
    "/* \"\n?> */",
];

/// Where a step begins: the position and the top frame.
type Place = (u32, Option<Frame>);

/// What single steps give: where the top frame opened at each place, the comments, the last place, and the last answer.
struct Stepped {
    openings: HashMap<Place, Span>,
    comments: Vec<(Span, Vec<u8>)>,
    end: Place,
    last: Result<Progress, Refusal>,
}

fn place(session: &Session) -> Place {
    (session.position(), session.top())
}

/// Reads a script step by step.
fn stepped(script: &[u8], octals: Octal) -> Stepped {
    let choices = Choices { nowdocs: Reading::Sheet, octals };
    let (mut session, mut list, mut pool) = (Session::fresh(choices), [0; 16], vec![0; script.len()]);
    let (mut spans, mut last) = (vec![Span::START], Ok(Progress::Done));
    let (mut openings, mut comments) = (HashMap::from([(place(&session), Span::START)]), Vec::new());
    while last == Ok(Progress::Done) {
        let before = session.clone();
        session.empty_tables();
        last = session.step(script, End::Announced, &mut list, &mut pool);
        if before.depth() == session.depth() && before.top() != session.top() {
            spans.pop();
        }
        let opening = if session.top() == Some(Frame::VarOffset) { session.span() } else { before.span() };
        spans.resize(session.depth() as usize, opening);
        openings.insert(place(&session), spans[spans.len() - 1]);
        let found = session.records(&list).filter(|record| record.kind == kinds::COMMENT);
        comments.extend(found.map(|record| (record.span, record.value(&pool).unwrap().to_vec())));
    }
    Stepped { openings, comments, end: place(&session), last }
}

fn check(script: &[u8]) {
    check_by(script, Octal::Rust);
    check_by(script, Octal::Manual);
}

/// Each step of the reader must be a single step, with the opening of its text; no step of a nowdoc block and no
/// comment may be missing.
fn check_by(script: &[u8], octals: Octal) {
    let text = String::from_utf8_lossy(script);
    let Stepped { openings, comments, end, last } = stepped(script, octals);
    let mut reader = Reader::new(script, octals);
    let mut seen = HashSet::new();
    let mut follow = |place: Place, opening: Span| {
        let single = openings.get(&place);
        let is_told = !matches!(place.1, Some(Frame::Initial | Frame::Scripting));
        assert_eq!(single.map(|span| is_told && *span != opening), Some(false), "{:?} at {:?}", text, place);
        seen.insert(place);
    };
    let answer = loop {
        match reader.next_step() {
            Ok(Some(step)) => follow(place(&step.before), step.opening),
            Ok(None) => break Ok(Progress::Finished),
            Err(refusal) => break Err(refusal),
        }
    };
    assert_eq!((answer, place(reader.session())), (last, end), "{:?}", text);
    follow(end, reader.opening());
    let kept = |remark: &Remark| (remark.span, remark.text.clone());
    assert_eq!(reader.remarks().iter().map(kept).collect::<Vec<_>>(), comments, "{:?}", text);
    let mut blocks = openings.keys().filter(|(_position, top)| matches!(top, Some(Frame::Nowdoc(_))));
    assert_eq!(blocks.find(|block| !seen.contains(block)), None, "{:?}", text);
}

#[test]
fn random_scripts() {
    let mut random = Random::new(5);
    for _ in 0..20_000 {
        let mut script = b"<?php ".to_vec();
        for _ in 0..random.below(30) {
            match random.below(8) {
                0 => script.extend(pieces::script(&mut random)),
                1 => script.extend_from_slice(b" f(<<<'KERB'\n  oo\n o.\n KERB, \"a $b[0] {$c} ${d}\");\n"),
                _ => script.extend_from_slice(random.pick(MARKS).as_bytes()),
            }
        }
        script.truncate(random.below(2 * script.len()));
        check(&script);
    }
}

#[test]
fn sample_sheets_that_break_off_anywhere() {
    let folder = concat!(env!("CARGO_MANIFEST_DIR"), "/../../sheets");
    for name in ["street-crossing", "station-forecourt", "tabs-before-closer", "street-names", "remarks"] {
        let script = fs::read(format!("{}/{}.php", folder, name)).unwrap();
        (0..=script.len()).for_each(|end| check(&script[..end]));
    }
}

/// A text that opens in a line where another one of its kind closes.
#[test]
fn texts_in_one_line() {
    for script in
        ["<?php \"$a\" \"$b", "<?php \"{$a}\" . \"{$b\n}", "<?php `a` `$b\n", "<?php } { \"$a[", "<?php `${a} $b[0"]
    {
        check(script.as_bytes());
    }
}

/// Comments that go on over lines, stand behind others in one, or hold what would open a text.
#[test]
fn comments_over_lines() {
    for script in [
        "<?php /* a\n'b\n*/ 'c' // it's \"\n# d\n#[e] /**/ /*/\n*/ f(<<<'A'\n// o\nA); /* ?>\n*/",
        "<?php 1; /*\n\n\n*/ <<<'A'\no\nA; /*\n*/ /*\n*/\n<<<'A'\noo\nA;",
        "<?php \"$a\" /*\n*/ \"$b[/*",
        "<?php \"{$a /*\n*/ . '}' // \"\n}\" # `\n`",
        "<?php /* a\n'b",
    ] {
        (0..=script.len()).for_each(|end| check(&script.as_bytes()[..end]));
    }
}
