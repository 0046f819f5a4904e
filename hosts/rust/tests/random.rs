//! Random scripts, sessions and bytes: no call panics, a refused call leaves everything, parts of any size give the same.

mod lent;

use cases::pieces::script;
use cases::random::Random;
use lent::{Lent, CHOICES};
use puretakoi::{
    kinds, limits, records, refusals, Choices, End, Event, Frame, Label, Progress, Refusal, Session, Span, Stream,
    Token,
};

const TRIES: usize = 20_000;

/// One of the calls, with arguments that may be wild.
fn call(lent: &mut Lent, src: &[u8], random: &mut Random) -> Result<(), Refusal> {
    let Lent { session, list, pool } = lent;
    let end = if random.below(2) == 0 { End::More } else { End::Announced };
    match random.below(8) {
        0 => session.step(src, end, list, pool).map(drop),
        7 => session.walk(src, end, 1, list, pool).map(drop),
        1 => session.read_number(src, end, list, pool).map(drop),
        2 => session.read_single(src, end, list, pool).map(drop),
        3 => session.read_double(src, end, list, pool).map(drop),
        4 => session.skip(src, wild(random) as usize),
        5 => session.push(src, Frame::Nowdoc(Label { start: wild(random), len: wild(random) })),
        _ => session.pop(src),
    }
}

/// A small number, or any.
fn wild(random: &mut Random) -> u32 {
    match random.below(4) {
        0 => random.number() as u32,
        _ => random.below(12) as u32,
    }
}

/// A session that some steps of the script reach; one in two has numbers that are changed by hand.
fn reached(src: &[u8], random: &mut Random) -> Lent {
    let mut session = Session::fresh(CHOICES[random.below(4)]);
    // What no call wrote is no record: there is no such kind.
    let (mut list, mut pool) = (vec![99; 8 * random.below(20)], vec![3; random.below(100)]);
    for _ in 0..random.below(8) {
        if session.step(src, End::Announced, &mut list, &mut pool) != Ok(Progress::Done) {
            break;
        }
    }
    if random.below(2) == 0 {
        let mut numbers = *session.numbers();
        for _ in 0..=random.below(3) {
            numbers[random.below(16)] = wild(random);
        }
        session = Session::from_numbers(numbers);
    }
    Lent { session, list, pool }
}

#[test]
fn a_refused_call_leaves_everything() {
    let mut random = Random::new(1);
    let (mut met, mut written) = ([0; 14], [0; 22]);
    for _ in 0..TRIES {
        let src = script(&mut random);
        let mut lent = reached(&src, &mut random);
        let before = lent.clone();
        match call(&mut lent, &src, &mut random) {
            Ok(()) => {
                assert!(lent.session.position() as usize <= src.len());
                assert!(lent.session.top().is_some());
                assert_eq!(lent.session.choices(), before.session.choices());
                assert!(lent.session.choices().is_some());
                met[0] += 1;
                for record in lent.session.records(&lent.list).skip(before.session.tokens() as usize) {
                    assert!((1..=21).contains(&record.kind), "{:?} on {:?}", record, src);
                    written[record.kind as usize] += 1;
                }
            }
            Err(refusal) => {
                assert_eq!(lent, before, "{} on {:?}", refusal, src);
                assert!(refusal.number != refusals::BAD_SESSION || refusal.span == Span::START);
                met[refusal.number as usize] += 1;
            }
        }
    }
    for kind in [kinds::STRING_PART, kinds::LITERAL_INTEGER, kinds::COMMENT] {
        assert!(written[kind as usize] > 0, "no call wrote a record of kind {}", kind);
    }
    for number in [0, 1, 6, 7, 8, 10, 12] {
        assert!(met[number] > 0, "no call gave {}", number);
    }
}

/// The tokens and the last event of a script that is fed in parts of random sizes, up to the largest.
fn read(src: &[u8], largest: usize, choices: Choices, random: &mut Random) -> (Vec<Token>, Event) {
    let mut stream = Stream::new(choices);
    let mut rest = src;
    let mut tokens = Vec::new();
    loop {
        match stream.next() {
            Event::Tokens(more) => tokens.extend(more),
            Event::Wait if rest.is_empty() => stream.finish(),
            Event::Wait => {
                let (part, behind) = rest.split_at(rest.len().min(random.below(largest) + 1));
                stream.feed(part).unwrap();
                rest = behind;
            }
            last => return (tokens, last),
        }
    }
}

#[test]
fn parts_of_any_size_give_the_same() {
    let mut random = Random::new(2);
    for try_number in 0..TRIES / 10 {
        let src = match try_number % 4 {
            0 => (0..random.below(200)).map(|_| random.number() as u8).collect(),
            _ => [script(&mut random), script(&mut random)].concat(),
        };
        for choices in CHOICES {
            let whole = read(&src, limits::MOST_BYTES, choices, &mut random);
            assert_eq!(read(&src, 5, choices, &mut random), whole, "{:?} by {:?}", src, choices);
        }
    }
}

/// List and pool of one step after another hold the tokens that a stream gives.
#[test]
fn a_stream_gives_what_steps_write() {
    let mut random = Random::new(3);
    for _ in 0..TRIES / 10 {
        let src = script(&mut random);
        let choices = CHOICES[random.below(4)];
        let (mut session, mut list, mut pool) = (Session::fresh(choices), vec![0; 8 * 500], vec![0; 500]);
        while session.step(&src, End::Announced, &mut list, &mut pool) == Ok(Progress::Done) {}
        list.truncate(8 * session.tokens() as usize);
        let stepped = records(&list).map(|record| (record.kind, record.span, record.value(&pool).unwrap().to_vec()));
        let (tokens, _last) = read(&src, 9, choices, &mut random);
        let streamed: Vec<_> = tokens.into_iter().map(|token| (token.kind, token.span, token.value)).collect();
        assert_eq!(stepped.collect::<Vec<_>>(), streamed, "{:?}", src);
    }
}
