//! Look-ups: cases worked by hand, every short list, the lists of scripts, random lists, and lists at the limits.

use cases::call::{RECORD, RECORD_END, RECORD_POSITION};
use cases::lookup::{FOUND, FOUND_ENDED};
use cases::pieces::every_text;
use cases::random::Random;
use cases::{Call, Lookup};
use telling::find::found;
use telling::session::MOST_TOKENS;
use telling::Teller;

use crate::walks::{fresh, SCRIPTS};

/// Look-ups at random.
const RANDOM: usize = 120;

/// A title, a look-up, and what it gives, worked by hand.
const WORKED: [(&str, &str, &str); 36] = [
    ("no record: none, and no look", "find 0 9 3 24:5,6,7", "none 0"),
    ("an empty list", "find 0 0 3 0:-", "none 0"),
    ("a byte before the first record", "find 3 1 3 24:2,5,9", "none 2"),
    ("at the first record", "find 3 2 3 24:2,5,9", "record 0 2"),
    ("at a record", "find 3 5 3 24:2,5,9", "record 1 2"),
    ("between two records", "find 3 8 3 24:2,5,9", "record 1 2"),
    ("past all records", "find 3 100 3 24:2,5,9", "record 2 2"),
    ("past all records that the count tells", "find 2 100 3 24:2,5,9", "record 1 1"),
    ("one record", "find 1 4 3 8:4", "record 0 1"),
    ("a StringPart and what follows it bear one position: the last of them", "find 4 6 3 32:0,6,6,9", "record 2 2"),
    ("the same, after them", "find 4 8 3 32:0,6,6,9", "record 2 2"),
    ("all at one position", "find 7 3 3 56:3*7", "record 6 3"),
    ("a falling list: what the search comes to", "find 3 3 3 24:5,1,9", "record 1 2"),
    ("a falling list, which has a later record before the byte", "find 3 3 3 24:1,9,2", "record 0 2"),
    ("a falling list, in which none is found", "find 3 3 3 24:9,5,1", "none 2"),
    ("65,537 records, a byte before them: 17 looks", "find 65537 0 3 524296:1+1*65537", "none 17"),
    ("65,537 records, a byte among them: 17 looks", "find 65537 32769 3 524296:1+1*65537", "record 32768 17"),
    ("65,535 records: 16 looks", "find 65535 32769 3 524280:1+1*65535", "record 32768 16"),
    ("positions and bytes of any size", "find 2 4294967296 3 16:4294967295,4294967295", "record 1 1"),
    ("10 before 11 and 12", "find 65539 0 2 524304:-", "refused 10"),
    ("a slice of two numbers", "find 1 4 2 8:4", "refused 10"),
    ("a list over the limit, with no record asked for", "find 0 0 3 524304:-", "refused 11"),
    ("a count above the places", "find 2 4 3 15:4", "refused 12"),
    ("a count of more than 32 bits", "find 4294967297 4 3 8:4", "refused 12"),
    ("11 before 12", "find 65539 0 3 524304:-", "refused 11"),
    ("four numbers: the record's end comes last", "find 3 5 4 24:2,5,9:4,8,12", "record 1 2 8"),
    ("the first record's end", "find 3 2 4 24:2,5,9:4,8,12", "record 0 2 4"),
    ("the last record's end, past it", "find 3 100 4 24:2,5,9:4,8,12", "record 2 2 12"),
    ("with fewer records than there are", "find 2 100 4 24:2,5,9:4,8,12", "record 1 1 8"),
    ("three numbers: no end", "find 3 5 3 24:2,5,9:4,8,12", "record 1 2"),
    ("none: the end is 0", "find 3 1 4 24:2,5,9:4,8,12", "none 2 0"),
    ("no record: the end is 0", "find 0 9 4 24:2,5,9:4,8,12", "none 0 0"),
    ("seven numbers: what lies after the fourth stays", "find 3 5 7 24:2,5,9:4,8,12", "record 1 2 8"),
    ("an older writer's list, in which no end is stated", "find 3 5 4 24:2,5,9:0*3", "record 1 2 0"),
    ("any eighth number, as it stands", "find 2 9 4 16:5,1:3,4294967295", "record 1 1 4294967295"),
    ("a refused look-up writes no end", "find 4 5 4 24:2,5,9:4,8,12", "refused 12"),
];

/// A file's lines: each worked case with its title, then all others.
pub fn lines(random: &mut Random, teller: &mut Teller) -> Vec<(Option<&'static str>, Lookup)> {
    let mut lines = Vec::new();
    for (title, line, given) in WORKED {
        let lookup = Lookup::read(line.as_bytes()).expect(line);
        let mut told = Vec::new();
        found(&lookup).write(&mut told);
        assert_eq!(String::from_utf8_lossy(&told), given, "{}", line);
        lines.push((Some(title), lookup));
    }
    let mut others = short_lists();
    others.extend(SCRIPTS.iter().flat_map(|script| of_script(script, random, teller)));
    others.extend((0..RANDOM).map(|_| any_lookup(random)));
    others.extend(at_the_limits());
    lines.extend(others.into_iter().map(|lookup| (None, lookup)));
    lines
}

/// Every list of up to three records at 0, 1 or 2, at each byte up to 3.
fn short_lists() -> Vec<Lookup> {
    let mut lookups = Vec::new();
    let listed = every_text(&[0, 1, 2], 3, |positions| {
        let positions: Vec<u32> = positions.iter().copied().map(u32::from).collect();
        let (count, length) = (positions.len(), positions.len() * RECORD);
        lookups.extend((0..4).map(|byte| Lookup::new(length, &positions, count, byte)));
        Ok::<(), ()>(())
    });
    listed.map(|()| lookups).unwrap_or_default()
}

/// The list of a whole script at four bytes of it, some with fewer records than there are, two with their ends.
fn of_script(script: &[u8], random: &mut Random, teller: &mut Teller) -> Vec<Lookup> {
    let call: Call = fresh(script, 0);
    let told = teller.told(&call);
    let records = match told.written() {
        Some((_, records, _)) => records,
        None => return Vec::new(),
    };
    let [positions, ends] =
        [RECORD_POSITION, RECORD_END].map(|place| records.iter().map(|record| record[place]).collect::<Vec<u32>>());
    let last = script.len() + 2;
    let bytes = [0, random.below(last), random.below(last), last];
    let count = [positions.len(), positions.len(), random.below(positions.len() + 1), positions.len()];
    let new = |place: usize| Lookup {
        found: [FOUND, FOUND_ENDED][place % 2],
        ..Lookup::new(call.list, &positions, count[place], bytes[place]).with(RECORD_END, &ends)
    };
    (0..bytes.len()).map(new).collect()
}

/// A list of any positions, count, byte and lengths.
fn any_lookup(random: &mut Random) -> Lookup {
    let places = random.below(20);
    let most = *random.pick(&[&4, &30, &(1 << 32)]);
    let mut positions: Vec<u32> = (0..places).map(|_| random.below(most) as u32).collect();
    if random.below(3) == 0 {
        positions.sort_unstable();
    }
    let count = [places, places, places, random.below(places + 1), places + 1, usize::MAX][random.below(6)];
    let byte = [random.below(most), random.below(most), most, usize::MAX][random.below(4)];
    let lookup = Lookup::new(places * RECORD + random.below(RECORD), &positions, count, byte);
    Lookup { found: [3, 3, 4, 4, 6, random.below(3)][random.below(6)], ..lookup }
}

/// Lists of 65,535 to 65,538 places, with counts and bytes at their bounds and past them, every second with its end.
fn at_the_limits() -> Vec<Lookup> {
    let mut lookups = Vec::new();
    for places in MOST_TOKENS - 2..=MOST_TOKENS + 1 {
        let rising: Vec<u32> = (0..places as u32).map(|record| record * 2).collect();
        let ends: Vec<u32> = rising.iter().map(|position| position + 2).collect();
        for (count, byte) in [
            (0, usize::MAX),
            (1, 0),
            (places - 1, places),
            (places, 0),
            (places, 2 * places - 3),
            (places, 2 * places - 2),
            (places, usize::MAX),
            (places + 1, 0),
            (usize::MAX, 0),
        ] {
            let lookup = Lookup::new(places * RECORD + places % RECORD, &rising, count, byte);
            lookups.push(Lookup { found: FOUND + lookups.len() % 2, ..lookup.with(RECORD_END, &ends) });
        }
    }
    lookups
}
