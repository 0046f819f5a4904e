//! The host's boundary: the proved library's functions, and a call made between guards.

mod library;

pub use library::{classes_of, file_to_list, find, fresh, list_to_file};
pub use library::{make_on, past, peek_identifier, step, walk, Slices};

use cases::call::{answer_pattern, list_pattern, pool_pattern};
use cases::{Call, Given, Lookup, Seen};

/// How many guard items stand before and after each lent slice.
const GUARDS: usize = 4;

/// Makes the call and gives all that can be seen of it, or names the slice beside which something was written.
pub fn make(call: &Call) -> Result<Given, String> {
    let mut source = Lent::new("source", call.source.iter().copied(), 0x5a);
    let mut session = Lent::new("session", call.session.iter().copied(), 0x5a5a_a5a5);
    let mut answer = Lent::new("answer", (0..call.answer).map(answer_pattern), 0x5a5a_a5a5);
    let mut list = Lent::new("list", (0..call.list).map(list_pattern), 0x5a5a_a5a5);
    let mut pool = Lent::new("pool", (0..call.pool).map(pool_pattern), 0x5a);
    let number = make_on(
        call,
        Slices {
            source: source.slice(),
            session: session.slice(),
            list: list.slice(),
            pool: pool.slice(),
            answer: answer.slice(),
        },
    );
    if source.content()? != call.source {
        return Err("the source was written to".to_string());
    }
    let (session, answer, list, pool) = (session.content()?, answer.content()?, list.content()?, pool.content()?);
    Ok(Given { number, session, answer, list, pool })
}

/// Makes the look-up and gives all that can be seen of it, or names the slice in or beside which something was written.
pub fn look_up(lookup: &Lookup) -> Result<Seen, String> {
    let mut list = Lent::new("list", lookup.list.iter().copied(), 0x5a5a_a5a5);
    let mut found = Lent::new("slice for what is found", Seen::before(lookup).found.into_iter(), 0x5a5a_a5a5);
    let number = find(list.slice(), lookup.count, lookup.byte, found.slice());
    if list.content()? != lookup.list {
        return Err("the list was written to".to_string());
    }
    Ok(Seen { number, found: found.content()? })
}

/// A slice to lend, with guards on both sides.
struct Lent<T> {
    name: &'static str,
    guard: T,
    items: Vec<T>,
}

impl<T: Copy + PartialEq> Lent<T> {
    fn new(name: &'static str, content: impl ExactSizeIterator<Item = T>, guard: T) -> Self {
        let mut items = Vec::with_capacity(content.len() + 2 * GUARDS);
        items.extend([guard; GUARDS]);
        items.extend(content);
        items.extend([guard; GUARDS]);
        Lent { name, guard, items }
    }

    fn slice(&mut self) -> &mut [T] {
        let end = self.items.len() - GUARDS;
        &mut self.items[GUARDS..end]
    }

    /// What the slice holds, if the guards are as they were.
    fn content(mut self) -> Result<Vec<T>, String> {
        let end = self.items.len() - GUARDS;
        let guard = self.guard;
        if self.items[..GUARDS].iter().chain(&self.items[end..]).any(|item| *item != guard) {
            return Err(format!("beside the {} something was written", self.name));
        }
        self.items.truncate(end);
        self.items.drain(..GUARDS);
        Ok(self.items)
    }
}
