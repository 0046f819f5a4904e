//! A script that comes in parts: its bytes, its session, and tables with room for many steps.

use std::fmt;
use std::ops::Range;

use crate::choices::Choices;
use crate::numbers::layout::RECORD;
use crate::numbers::limits::MOST_BYTES;
use crate::numbers::refusals::{LIST_FULL, OUT_OF_PLACE, POOL_FULL, WAIT};
use crate::numbers::Kind;
use crate::record::{kind_name, written};
use crate::refusal::{Refusal, Span};
use crate::session::{End, Progress, Session};

/// How many tokens the list has room for; two are enough for any step.
const PLACES: usize = 512;

/// After a wait an open text is read again from its start. One of more than so many bytes is read again only when it has doubled, or at
/// the end: so what a long text costs grows with its length, and not with its square.
const LONG: usize = 4_096;

/// A token with its value.
#[derive(Clone, Debug, PartialEq, Eq, Hash)]
pub struct Token {
    /// The number of its kind, one of `kinds`.
    pub kind: u32,
    /// The indentation of an end of a text block, else 0.
    pub detail: u32,
    /// Where it stands.
    pub span: Span,
    /// Where the step ended that wrote it: the cursor's position then. All tokens of a step bear one end, so that of a
    /// string part is its step's and not the part's own. None where the end is not stated, as in files that an older
    /// writer made, and for the token of an empty script.
    pub end: Option<u32>,
    /// Its value.
    pub value: Vec<u8>,
}

impl Token {
    /// Its kind, where the number is one's; those that the library gives are.
    pub fn kind(&self) -> Option<Kind> {
        Kind::of(self.kind)
    }

    /// Its kind in words.
    pub fn kind_name(&self) -> &'static str {
        kind_name(self.kind)
    }

    /// Where in its script a literal or a comment (kinds 17 to 21) stands as it is written, with both quotes: the
    /// bytes from its position up to its end. None for other kinds, and where the end is not stated or these bytes are
    /// not in the script.
    pub fn written(&self, script: &[u8]) -> Option<Range<usize>> {
        written(self.kind, self.span, self.end, script)
    }
}

/// What comes next in a stream.
#[derive(Clone, Debug, PartialEq, Eq)]
pub enum Event {
    /// The next tokens, as many as were read at once.
    Tokens(Vec<Token>),
    /// More of the script must be fed, or its end announced.
    Wait,
    /// The script is read to its end, which is this position.
    Finished(u32),
    /// The script is refused.
    Refused(Refusal),
}

/// Reads a script that is fed in parts. The parts may be of any size: the tokens are the same. They come as soon as they are settled, but
/// for those of a text or comment of more than 4,096 bytes: they come at the latest when it has doubled, or at the end.
pub struct Stream {
    source: Vec<u8>,
    end: End,
    session: Session,
    list: Vec<u32>,
    pool: Vec<u8>,
    behind: Option<Event>,
    /// How many bytes must have come before it is worth while to read on after a wait.
    enough: usize,
}

impl Stream {
    /// A stream before its script.
    pub fn new(choices: impl Into<Choices>) -> Stream {
        Stream {
            source: Vec::new(),
            end: End::More,
            session: Session::fresh(choices),
            list: vec![0; PLACES * RECORD],
            pool: vec![0; MOST_BYTES],
            behind: None,
            enough: 0,
        }
    }

    /// A stream over a whole script, its end announced.
    pub(crate) fn whole(script: &[u8], choices: Choices) -> Stream {
        let mut stream = Stream::new(choices);
        stream.add(script);
        stream.finish();
        stream
    }

    /// Adds a part of the script. Refused with 10, and not added, once the end is announced. Of a script that is too large no more is
    /// kept than shows it; the first 65,536 bytes are read before it is refused.
    pub fn feed(&mut self, part: &[u8]) -> Result<(), Refusal> {
        if self.end == End::Announced {
            return Err(Refusal { number: OUT_OF_PLACE, span: self.session.span() });
        }
        self.add(part);
        if self.enough <= self.source.len() {
            self.end_wait();
        }
        Ok(())
    }

    /// Keeps a part, as far as there is room.
    fn add(&mut self, part: &[u8]) {
        let room = MOST_BYTES + 1 - self.source.len();
        self.source.extend_from_slice(&part[..part.len().min(room)]);
    }

    /// Announces the script's end.
    pub fn finish(&mut self) {
        self.end = End::Announced;
        self.end_wait();
    }

    /// The bytes that were fed so far, no more than 65,537 of them.
    pub fn source(&self) -> &[u8] {
        &self.source
    }

    /// Where the script is being read: behind the tokens that were given.
    pub fn session(&self) -> &Session {
        &self.session
    }

    /// The next tokens, or why there are none. Wait comes again until more is fed or the end announced; finished and refused come
    /// again from then on.
    #[allow(clippy::should_implement_trait)]
    pub fn next(&mut self) -> Event {
        if let Some(behind) = &self.behind {
            return behind.clone();
        }
        let answer = self.walk();
        let tokens = self.take_tokens();
        self.behind = match answer {
            Ok(Progress::Done) => None,
            Ok(Progress::Finished) => Some(Event::Finished(self.session.position())),
            Err(Refusal { number: WAIT, .. }) => {
                self.enough = enough(self.session.position() as usize, self.source.len());
                Some(Event::Wait)
            }
            // The tables are empty again, so the walk goes on.
            Err(Refusal { number: LIST_FULL | POOL_FULL, .. }) if !tokens.is_empty() => None,
            Err(refusal) => Some(Event::Refused(refusal)),
        };
        match &self.behind {
            Some(behind) if tokens.is_empty() => behind.clone(),
            _ => Event::Tokens(tokens),
        }
    }

    /// What was waited for may be there.
    fn end_wait(&mut self) {
        self.behind = self.behind.take().filter(|behind| *behind != Event::Wait);
    }

    /// A walk over all bytes so far. Of too many the first 65,536 are read until they wait; then the library refuses all.
    fn walk(&mut self) -> Result<Progress, Refusal> {
        let Stream { source, end, session, list, pool, .. } = self;
        if source.len() <= MOST_BYTES {
            return session.walk(source, *end, u32::MAX, list, pool);
        }
        match session.walk(&source[..MOST_BYTES], End::More, u32::MAX, list, pool) {
            Err(Refusal { number: WAIT, .. }) => session.walk(source, End::More, u32::MAX, list, pool),
            answer => answer,
        }
    }

    /// The tokens of the last walk; the tables are empty again.
    fn take_tokens(&mut self) -> Vec<Token> {
        let tokens = self.session.records(&self.list).map(|record| record.token(&self.pool)).collect();
        self.session.empty_tables();
        tokens
    }
}

/// After a wait at a position with so many bytes: how many are worth another look. One too many for a script always is.
fn enough(position: usize, filled: usize) -> usize {
    let open = filled - position;
    let more = if open > LONG { open } else { 1 };
    (filled + more).min(MOST_BYTES + 1)
}

impl fmt::Debug for Stream {
    fn fmt(&self, out: &mut fmt::Formatter) -> fmt::Result {
        out.debug_struct("Stream")
            .field("source", &self.source.len())
            .field("end", &self.end)
            .field("session", &self.session)
            .field("behind", &self.behind)
            .finish_non_exhaustive()
    }
}
