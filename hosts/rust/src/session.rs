//! A session and its calls: the walk, the step, the readings, skip, push and pop.

use std::fmt;

use crate::choices::{Choices, Octal, Reading};
use crate::foreign::{self, Call, Numbers};
use crate::frame::Frame;
use crate::numbers::choices::{DONE, FINISHED};
use crate::numbers::layout::*;
use crate::numbers::limits::MOST_FRAMES;
use crate::record::{records, Record};
use crate::refusal::{Refusal, Span};

/// Whether more of the script may come.
#[derive(Clone, Copy, Debug, PartialEq, Eq, Hash)]
pub enum End {
    /// More may come: a call that needs it is refused with 6, wait.
    More,
    /// The source is the whole script.
    Announced,
}

impl End {
    fn number(self) -> u32 {
        u32::from(self == End::Announced)
    }
}

/// What a call that was not refused came to.
#[derive(Clone, Copy, Debug, PartialEq, Eq, Hash)]
pub enum Progress {
    /// Done: go on.
    Done,
    /// Done, and nothing is left to read.
    Finished,
}

/// How a walk ended.
#[derive(Clone, Copy, Debug, PartialEq, Eq, Hash)]
pub struct Walk {
    /// What its last step came to, or why that was refused.
    pub end: Result<Progress, Refusal>,
    /// How many steps were done; a last one that is finished or refused does not count.
    pub steps: u32,
}

/// Where a script is being read: cursor, mode stack, the fill marks of list and pool, and its choices.
#[derive(Clone, PartialEq, Eq, Hash)]
pub struct Session {
    numbers: Numbers,
}

impl Session {
    /// A session before its script.
    pub fn fresh(choices: impl Into<Choices>) -> Session {
        Session { numbers: foreign::fresh(choices.into().number()) }
    }

    /// A session of any numbers: where they are none, every call is refused with 12.
    pub fn from_numbers(numbers: [u32; 199]) -> Session {
        Session { numbers }
    }

    /// All its numbers, in the order of include/puretakoi.h.
    pub fn numbers(&self) -> &[u32; 199] {
        &self.numbers
    }

    /// Bytes of the source that are read.
    pub fn position(&self) -> u32 {
        self.numbers[POSITION]
    }

    /// The cursor's line, from 1.
    pub fn line(&self) -> u32 {
        self.numbers[LINE]
    }

    /// The cursor's column in bytes, from 1.
    pub fn column(&self) -> u32 {
        self.numbers[COLUMN]
    }

    /// The cursor.
    pub fn span(&self) -> Span {
        Span { line: self.line(), column: self.column(), position: self.position() }
    }

    /// How many frames are on the mode stack.
    pub fn depth(&self) -> u32 {
        self.numbers[DEPTH]
    }

    /// The list's fill mark: how many records are in it.
    pub fn tokens(&self) -> u32 {
        self.numbers[TOKENS]
    }

    /// The pool's fill mark: how many bytes are in it.
    pub fn bytes(&self) -> u32 {
        self.numbers[BYTES]
    }

    /// What was chosen; none where the numbers are no session.
    pub fn choices(&self) -> Option<Choices> {
        Choices::of(self.numbers[CHOICES])
    }

    /// How nowdoc blocks are read; none where the numbers are no session.
    pub fn reading(&self) -> Option<Reading> {
        self.choices().map(|choices| choices.nowdocs)
    }

    /// What an octal escape over 377 is; none where the numbers are no session.
    pub fn octals(&self) -> Option<Octal> {
        self.choices().map(|choices| choices.octals)
    }

    /// The frame at a place of the mode stack, 0 for the bottom; none at the depth and above, or where the numbers are no session.
    pub fn frame(&self, at: usize) -> Option<Frame> {
        if at >= MOST_FRAMES || at >= self.depth() as usize {
            return None;
        }
        let slot = SLOTS + SLOT * at;
        Frame::of([self.numbers[slot], self.numbers[slot + 1], self.numbers[slot + 2]])
    }

    /// The frame on top of the mode stack; none where the numbers are no session.
    pub fn top(&self) -> Option<Frame> {
        self.frame((self.depth() as usize).checked_sub(1)?)
    }

    /// The records of a list up to its fill mark.
    pub fn records<'a>(&self, list: &'a [u32]) -> impl Iterator<Item = Record> + 'a {
        records(list).take(self.tokens() as usize)
    }

    /// Sets both fill marks to 0: list and pool are used from their start again.
    pub fn empty_tables(&mut self) {
        self.numbers[TOKENS] = 0;
        self.numbers[BYTES] = 0;
    }

    /// Sets what is chosen, between two steps: the next call reads by it. No call changes it.
    pub fn set_choices(&mut self, choices: Choices) {
        self.numbers[CHOICES] = choices.number();
    }

    /// Sets the cursor to a place of the script. One that is none is refused with 12 by the next call.
    pub fn set_span(&mut self, span: Span) {
        self.numbers[POSITION] = span.position;
        self.numbers[LINE] = span.line;
        self.numbers[COLUMN] = span.column;
    }

    /// Sets the top frame to another one. A label that is none is refused with 12 by the next call.
    pub fn set_top(&mut self, frame: Frame) {
        let at = (self.depth() as usize).clamp(1, MOST_FRAMES) - 1;
        let slot = SLOTS + SLOT * at;
        self.numbers[slot..slot + SLOT].copy_from_slice(&frame.slot());
    }

    /// At most `most` steps from the cursor on, up to one that is not done: faster than a call for each. New records and value
    /// bytes stand behind the fill marks. Where a step is refused, the session stands before it, and what the steps before it wrote
    /// stays; where that is the first step, all is as it was. So after 7 or 8 take the tokens, empty the tables and walk on. With
    /// `most` 0 nothing is read, and the answer is done, or 11 or 12: so a session can be tried on a script.
    pub fn walk(
        &mut self,
        src: &[u8],
        end: End,
        most: u32,
        list: &mut [u32],
        pool: &mut [u8],
    ) -> Result<Progress, Refusal> {
        self.counted_walk(src, end, most, list, pool).end
    }

    /// The same, which also tells how many steps were done: session, list and pool stand just as after so many.
    pub fn counted_walk(&mut self, src: &[u8], end: End, most: u32, list: &mut [u32], pool: &mut [u8]) -> Walk {
        let answer = foreign::walk(src, end.number(), most, &mut self.numbers, list, pool);
        Walk { end: progress(&answer), steps: answer[ANSWER_STEPS] }
    }

    /// One step from the cursor on, for a host that looks at the session before each. New records and value bytes stand behind the
    /// fill marks.
    pub fn step(&mut self, src: &[u8], end: End, list: &mut [u32], pool: &mut [u8]) -> Result<Progress, Refusal> {
        self.read(Call::Step, src, end, list, pool)
    }

    /// The number at the cursor.
    pub fn read_number(
        &mut self,
        src: &[u8],
        end: End,
        list: &mut [u32],
        pool: &mut [u8],
    ) -> Result<Progress, Refusal> {
        self.read(Call::Number, src, end, list, pool)
    }

    /// The single-quoted string whose text starts at the cursor, behind its quote.
    pub fn read_single(
        &mut self,
        src: &[u8],
        end: End,
        list: &mut [u32],
        pool: &mut [u8],
    ) -> Result<Progress, Refusal> {
        self.read(Call::Single, src, end, list, pool)
    }

    /// The double-quoted string whose text starts at the cursor, behind its quote, up to its end or its first interpolation.
    pub fn read_double(
        &mut self,
        src: &[u8],
        end: End,
        list: &mut [u32],
        pool: &mut [u8],
    ) -> Result<Progress, Refusal> {
        self.read(Call::Double, src, end, list, pool)
    }

    /// The cursor goes on by `count` bytes.
    pub fn skip(&mut self, src: &[u8], count: usize) -> Result<(), Refusal> {
        progress(&foreign::skip(src, count, &mut self.numbers)).map(drop)
    }

    /// One frame more.
    pub fn push(&mut self, src: &[u8], frame: Frame) -> Result<(), Refusal> {
        progress(&foreign::push(src, frame.slot(), &mut self.numbers)).map(drop)
    }

    /// One frame less.
    pub fn pop(&mut self, src: &[u8]) -> Result<(), Refusal> {
        progress(&foreign::pop(src, &mut self.numbers)).map(drop)
    }

    fn read(
        &mut self,
        call: Call,
        src: &[u8],
        end: End,
        list: &mut [u32],
        pool: &mut [u8],
    ) -> Result<Progress, Refusal> {
        progress(&foreign::read(call, src, end.number(), &mut self.numbers, list, pool))
    }
}

/// What an answer's numbers say.
fn progress(answer: &[u32]) -> Result<Progress, Refusal> {
    match answer[ANSWER_WAY] {
        DONE => Ok(Progress::Done),
        FINISHED => Ok(Progress::Finished),
        _ => Err(Refusal {
            number: answer[ANSWER_REFUSAL],
            span: Span { line: answer[ANSWER_LINE], column: answer[ANSWER_COLUMN], position: answer[ANSWER_POSITION] },
        }),
    }
}

impl fmt::Debug for Session {
    fn fmt(&self, out: &mut fmt::Formatter) -> fmt::Result {
        let frames: Vec<Frame> = (0..MOST_FRAMES).map_while(|at| self.frame(at)).collect();
        out.debug_struct("Session")
            .field("span", &self.span())
            .field("frames", &frames)
            .field("tokens", &self.tokens())
            .field("bytes", &self.bytes())
            .field("choices", &self.choices())
            .finish()
    }
}
