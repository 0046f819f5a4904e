//! A walk is as many steps, up to one that is not done: the same answer, records, values and session.

mod lent;

use cases::pieces::script;
use cases::random::Random;
use lent::{Lent, CHOICES};
use puretakoi::{kinds, refusals, Choices, End, Frame, Label, Progress, Reading, Refusal, Session, Span, Walk};

const TRIES: usize = 20_000;

impl Lent {
    fn new(choices: impl Into<Choices>, places: usize, bytes: usize) -> Lent {
        Lent { session: Session::fresh(choices), list: vec![7; 8 * places], pool: vec![7; bytes] }
    }

    fn walk(&mut self, src: &[u8], end: End, most: u32) -> Result<Progress, Refusal> {
        self.session.walk(src, end, most, &mut self.list, &mut self.pool)
    }

    /// As many steps, each by its own call.
    fn steps(&mut self, src: &[u8], end: End, most: u32) -> Result<Progress, Refusal> {
        let mut answer = Ok(Progress::Done);
        let mut left = most;
        while left > 0 && answer == Ok(Progress::Done) {
            left -= 1;
            answer = self.session.step(src, end, &mut self.list, &mut self.pool);
        }
        answer
    }

    /// The session's numbers without the slots above the depth, which mean nothing.
    fn numbers(&self) -> &[u32] {
        &self.session.numbers()[..7 + 3 * self.session.depth() as usize]
    }

    fn kinds(&self) -> Vec<u32> {
        self.session.records(&self.list).map(|record| record.kind).collect()
    }
}

/// A walk must be as many steps, and tell how many of them were done; its answer.
fn check(lent: &mut Lent, src: &[u8], end: End, most: u32) -> Result<Progress, Refusal> {
    let (mut stepped, mut again) = (lent.clone(), lent.clone());
    let Walk { end: answer, steps } = lent.session.counted_walk(src, end, most, &mut lent.list, &mut lent.pool);
    let text = String::from_utf8_lossy(src);
    assert_eq!(answer, stepped.steps(src, end, most), "{} steps of {:?}", most, text);
    assert_eq!(again.steps(src, end, steps), Ok(Progress::Done), "{} steps of {:?}", steps, text);
    assert!(answer == Ok(Progress::Finished) || again == stepped, "{} steps of {:?}", steps, text);
    assert!(steps == most || (steps < most && answer != Ok(Progress::Done)), "{} steps of {:?}", steps, text);
    assert_eq!(lent.numbers(), stepped.numbers(), "{} steps of {:?}", most, text);
    assert_eq!((&lent.list, &lent.pool), (&stepped.list, &stepped.pool), "{} steps of {:?}", most, text);
    answer
}

fn refused(number: u32, column: u32, position: u32) -> Result<Progress, Refusal> {
    Err(Refusal { number, span: Span { line: 1, column, position } })
}

const SCRIPTS: &[&[u8]] = &[
    b"",
    b"rows",
    b"<?php 'a' 12;\n",
    b"a<?= f(1, .5) { g(); } ?>b<? `c $d[0] {$e->f} ${g}` ",
    b"<?php \"kerb $a[1] {$b} ${c} $d->e\"; \"open $f",
    b"<?php <<<'EOT'\n  ab\n   c\n  EOT;\n<<<E\n$a\n E; 'legend'",
    b"<?php <<<'EOT'\n  ab\n c\n  EOT; 1;",
    b"<?php <<<'EOT'\n  EOTs\n  EOT",
    b"<?php { { '\\'' } \"\\400\" } 1;",
    b"<?php // it's\n# a?><?= /* \"\n'*/ 1 #[b] /**/ 2 /*/",
];

#[test]
fn a_walk_is_as_many_steps() {
    for src in SCRIPTS {
        for most in (0..30).chain([1_000, u32::MAX]) {
            for choices in CHOICES {
                for end in [End::More, End::Announced] {
                    check(&mut Lent::new(choices, 40, 200), src, end, most).ok();
                }
            }
        }
    }
}

/// The list fills behind two tokens, and takes the others once it is empty again.
#[test]
fn a_list_that_fills_in_the_middle() {
    let src = b"<?php 1; 'b'; 2.5";
    let mut lent = Lent::new(Reading::Ported, 2, 20);
    assert_eq!(check(&mut lent, src, End::Announced, u32::MAX), refused(refusals::LIST_FULL, 10, 9));
    assert_eq!(lent.kinds(), [kinds::OPEN_TAG_FULL, kinds::LITERAL_INTEGER]);
    assert_eq!((lent.session.position(), lent.session.bytes(), &lent.pool[..6]), (9, 6, &b"<?php1"[..]));
    let full = lent.clone();
    assert_eq!(check(&mut lent, src, End::Announced, u32::MAX), refused(refusals::LIST_FULL, 10, 9));
    assert_eq!(lent, full);
    lent.session.empty_tables();
    assert_eq!(check(&mut lent, src, End::Announced, u32::MAX), Ok(Progress::Finished));
    assert_eq!(lent.kinds(), [kinds::LITERAL_SINGLE_QUOTED_STRING, kinds::LITERAL_FLOAT]);
    assert_eq!(&lent.pool[..4], b"b2.5");
}

/// Without a place in the list a walk stops before the first step that writes a token.
#[test]
fn a_list_without_a_place() {
    let src = b"<?php f(); { <<<'A'\no\nA";
    let mut lent = Lent::new(Reading::Sheet, 1, 5);
    assert_eq!(check(&mut lent, src, End::Announced, 1), Ok(Progress::Done));
    lent = Lent { list: Vec::new(), pool: Vec::new(), ..lent };
    lent.session.empty_tables();
    let stop = Refusal { number: refusals::LIST_FULL, span: Span { line: 2, column: 1, position: 20 } };
    assert_eq!(check(&mut lent, src, End::Announced, u32::MAX), Err(stop));
    let block = Frame::Nowdoc(Label { start: 17, len: 1 });
    assert_eq!((lent.session.span(), lent.session.top()), (stop.span, Some(block)));
}

#[test]
fn a_pool_that_fills_in_the_middle() {
    let src = b"<?php 1; 'bcde';";
    let mut lent = Lent::new(Reading::Ported, 9, 8);
    assert_eq!(check(&mut lent, src, End::Announced, u32::MAX), refused(refusals::POOL_FULL, 10, 9));
    assert_eq!((lent.session.tokens(), lent.session.bytes()), (2, 6));
    lent.session.empty_tables();
    assert_eq!(check(&mut lent, src, End::Announced, u32::MAX), Ok(Progress::Finished));
    assert_eq!(&lent.pool[..4], b"bcde");
}

#[test]
fn a_walk_that_waits_keeps_what_is_read() {
    let src = b"<?php 1; 'kerb'; 23";
    let mut lent = Lent::new(Reading::Ported, 9, 20);
    assert_eq!(check(&mut lent, &src[..12], End::More, u32::MAX), refused(refusals::WAIT, 10, 9));
    assert_eq!(lent.kinds(), [kinds::OPEN_TAG_FULL, kinds::LITERAL_INTEGER]);
    assert_eq!(check(&mut lent, src, End::More, u32::MAX), refused(refusals::WAIT, 18, 17));
    assert_eq!(check(&mut lent, src, End::Announced, u32::MAX), Ok(Progress::Finished));
    assert_eq!((lent.session.tokens(), &lent.pool[..12]), (4, &b"<?php1kerb23"[..]));
}

/// Also where the first step would be refused.
#[test]
fn no_steps_change_nothing() {
    for src in [&b"<?php 1;"[..], b"<?php '"] {
        let mut lent = Lent::new(Reading::Sheet, 3, 20);
        lent.walk(src, End::Announced, 2).unwrap();
        let before = lent.clone();
        assert_eq!(lent.walk(src, End::Announced, 0), Ok(Progress::Done));
        assert_eq!(lent, before);
    }
}

/// A session that is none of this script's, and a script that is too long.
#[test]
fn no_steps_ask_the_gate() {
    let mut lent = Lent::new(Reading::Ported, 3, 20);
    lent.walk(b"<?php 1;", End::Announced, 2).unwrap();
    let before = lent.clone();
    assert_eq!(lent.walk(b"<?ph", End::Announced, 0), refused(refusals::BAD_SESSION, 1, 0));
    assert_eq!(lent.walk(&[b'a'; 65_537], End::More, 0), refused(refusals::TOO_LARGE, 1, 0));
    assert_eq!(lent, before);
}

#[test]
fn a_first_step_that_is_refused_leaves_everything() {
    let mut lent = Lent::new(Reading::Ported, 3, 20);
    lent.walk(b"<?php \"\\400\"", End::Announced, 2).unwrap();
    let before = lent.clone();
    let answer = lent.walk(b"<?php \"\\400\"", End::Announced, u32::MAX);
    assert_eq!(answer.map_err(|refusal| refusal.number), Err(refusals::INVALID_OCTAL_ESCAPE));
    assert_eq!(lent, before);
}

/// Random scripts through tables of random sizes, from wherever some steps lead.
#[test]
fn random_walks_are_as_many_steps() {
    let mut random = Random::new(4);
    let mut met = [0; 14];
    for _ in 0..TRIES {
        let src = [script(&mut random), script(&mut random)].concat();
        let mut lent = Lent::new(CHOICES[random.below(4)], random.below(30), random.below(100));
        lent.steps(&src, End::Announced, random.below(6) as u32).ok();
        let (start, end) = (lent.session.position(), if random.below(2) == 0 { End::More } else { End::Announced });
        let most = if random.below(2) == 0 { u32::MAX } else { random.below(20) as u32 };
        let answer = check(&mut lent, &src, end, most);
        if lent.session.position() > start {
            met[answer.map_or_else(|refusal| refusal.number as usize, |_| 0)] += 1;
        }
    }
    for number in [0, 1, 2, 3, 4, 6, 7, 8, 13] {
        assert!(met[number] > 0, "no walk of some steps ended with {}", number);
    }
}
