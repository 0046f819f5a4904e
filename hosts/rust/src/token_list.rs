//! All tokens of a whole script in one list and one pool, which can be asked which of them is under a byte.

use std::fmt;
use std::ops::Range;

use crate::choices::Choices;
use crate::find::find;
use crate::frame::Frame;
use crate::numbers::layout::RECORD;
use crate::numbers::limits::MOST_BYTES;
use crate::record::{records, Record};
use crate::refusal::Refusal;
use crate::session::{End, Progress, Session};
use crate::stream::Token;

/// All tokens of a whole script, read by steps from a fresh session. What was read before a refusal stays and can be
/// asked.
#[derive(Clone)]
pub struct TokenList {
    list: Vec<u32>,
    pool: Vec<u8>,
    /// For each token the step that wrote it.
    steps: Vec<Step>,
    session: Session,
    end: Result<u32, Refusal>,
}

/// What a step passed, and in which frame.
#[derive(Clone)]
struct Step {
    passed: Range<usize>,
    frame: Frame,
}

/// A token of a list.
#[derive(Clone, Debug, PartialEq, Eq, Hash)]
pub struct Listed {
    /// Its number, from 0.
    pub number: usize,
    /// The token.
    pub token: Token,
    /// The bytes of the script that the step passed which wrote it, up to the token's end. A byte within them is the
    /// token's, or that of another token of the step, as a string part and the token after it are written by one; a
    /// byte after them has no token.
    pub passed: Range<usize>,
    /// The frame that was on top before the step: what it read in.
    pub frame: Frame,
}

/// The token under a byte.
#[derive(Clone, Debug, PartialEq, Eq, Hash)]
pub struct Under {
    /// The last token whose position is at or before the byte. The byte may be after its end.
    pub listed: Listed,
    /// How many records were looked at: at most 17.
    pub looks: u32,
}

impl Listed {
    /// Where in its script a literal or a comment stands as it is written, with both quotes: `Token::written`.
    pub fn written(&self, script: &[u8]) -> Option<Range<usize>> {
        self.token.written(script)
    }
}

impl TokenList {
    /// Reads a script by these choices. One of more than 65,536 bytes is refused with 11, and has no token.
    pub fn new(script: &[u8], choices: impl Into<Choices>) -> TokenList {
        let bytes = script.len().min(MOST_BYTES);
        let (list, pool) = (vec![0; RECORD * (bytes + 1)], vec![0; bytes]);
        let mut all = TokenList { list, pool, steps: Vec::new(), session: Session::fresh(choices), end: Ok(0) };
        while all.goes_on(script) {}
        all.list.truncate(RECORD * all.len());
        all.pool.truncate(all.session.bytes() as usize);
        all
    }

    /// Takes a step; whether there is more to read.
    fn goes_on(&mut self, script: &[u8]) -> bool {
        let (from, frame) = (self.session.position() as usize, self.session.top().unwrap_or(Frame::Initial));
        let answer = self.session.step(script, End::Announced, &mut self.list, &mut self.pool);
        let passed = from..self.session.position() as usize;
        self.steps.resize(self.session.tokens() as usize, Step { passed, frame });
        self.end = answer.map(|_| self.session.position());
        answer == Ok(Progress::Done)
    }

    /// The token under a byte, a position in the script: the last one at or before it, of those at one position the
    /// last; none where there is no token at all. `Listed::passed` tells whether the byte lies within what its step
    /// passed.
    pub fn at(&self, byte: usize) -> Option<Under> {
        let found = find(&self.list, self.len(), byte).ok()?;
        let listed = self.get(found.record?)?;
        Some(Under { listed, looks: found.looks })
    }

    /// How many tokens it has.
    pub fn len(&self) -> usize {
        self.steps.len()
    }

    /// Whether it has no token, for its first step was refused.
    pub fn is_empty(&self) -> bool {
        self.steps.is_empty()
    }

    /// The token of a number, from 0.
    pub fn get(&self, number: usize) -> Option<Listed> {
        let step = self.steps.get(number)?;
        let record = records(self.list.get(RECORD * number..)?).next()?;
        Some(self.listed(number, record, step))
    }

    /// All tokens, in the script's order.
    pub fn iter(&self) -> impl Iterator<Item = Listed> + '_ {
        let all = records(&self.list).zip(&self.steps).zip(0..);
        all.map(move |((record, step), number)| self.listed(number, record, step))
    }

    /// How the reading ended: at which position, or by which refusal.
    pub fn end(&self) -> Result<u32, Refusal> {
        self.end
    }

    /// The session that the reading left: at the script's end, or before the step that was refused.
    pub fn session(&self) -> &Session {
        &self.session
    }

    /// The list: the records of all tokens, and nothing else.
    pub fn list(&self) -> &[u32] {
        &self.list
    }

    /// The pool: the values of all tokens, and nothing else.
    pub fn pool(&self) -> &[u8] {
        &self.pool
    }

    fn listed(&self, number: usize, record: Record, step: &Step) -> Listed {
        Listed { number, token: record.token(&self.pool), passed: step.passed.clone(), frame: step.frame }
    }
}

impl fmt::Debug for TokenList {
    fn fmt(&self, out: &mut fmt::Formatter) -> fmt::Result {
        out.debug_struct("TokenList").field("tokens", &self.len()).field("end", &self.end).finish_non_exhaustive()
    }
}
