//! A session, from any numbers at all and back (document 01, "Session"; include/puretakoi.h has the layout).

use cases::call::{BYTES, CHOICES, COLUMN, DEPTH, LINE, OCTAL_MANUAL, POSITION, SHEETS, SLOT, SLOTS, TOKENS};
use cases::{Change, Frame, Span};

use crate::bytes::{is_identifier, START};
use crate::table::{Label, NO_LABEL};

/// Document 01's limits.
pub const MOST_BYTES: usize = 65_536;
pub const MOST_TOKENS: usize = 65_537;
pub const MOST_FRAMES: usize = 64;
pub const MOST_LABEL: usize = 64;

/// The frames in the order of their numbers.
const FRAMES: [Frame; 9] = [
    Frame::Initial,
    Frame::Scripting,
    Frame::DoubleQuote,
    Frame::ShellExec,
    Frame::Heredoc,
    Frame::Nowdoc,
    Frame::LookingForVarname,
    Frame::LookingForProperty,
    Frame::VarOffset,
];

/// What a session's owner chose.
#[derive(Clone, Copy, Debug, Default, PartialEq, Eq)]
pub struct Choices {
    /// Nowdoc blocks are read as sheets.
    pub sheet: bool,
    /// An octal escape over 255 is a byte, as the manual has it.
    pub manual: bool,
}

impl Choices {
    /// The choices of a number; none where a bit is no flag.
    pub fn of(number: usize) -> Option<Choices> {
        let has = |flag: usize| number & flag != 0;
        (number & !(SHEETS | OCTAL_MANUAL) == 0).then(|| Choices { sheet: has(SHEETS), manual: has(OCTAL_MANUAL) })
    }

    fn number(self) -> u32 {
        let flag = |chosen: bool, flag: usize| if chosen { flag as u32 } else { 0 };
        flag(self.sheet, SHEETS) | flag(self.manual, OCTAL_MANUAL)
    }
}

/// A session whose depth, choices and frames are such; all else may be out of bounds.
#[derive(Clone, Debug, PartialEq, Eq)]
pub struct Session {
    pub span: Span,
    pub depth: usize,
    pub tokens: usize,
    pub bytes: usize,
    pub choices: Choices,
    /// What each slot is read as: frame, label start, label length.
    slots: [[u32; SLOT]; MOST_FRAMES],
}

impl Session {
    pub fn fresh(choices: Choices) -> Session {
        let slots = [[Frame::Initial as u32, 0, 0]; MOST_FRAMES];
        Session { span: START, depth: 1, tokens: 0, bytes: 0, choices, slots }
    }

    /// The session in 199 numbers; none where depth, choices or a slot below the depth is no such thing.
    pub fn read(numbers: &[u32]) -> Option<Session> {
        let number = |place: usize| numbers[place] as usize;
        let depth = number(DEPTH);
        let is_frame = |slot: usize| number(SLOTS + slot * SLOT) < FRAMES.len();
        if depth == 0 || depth > MOST_FRAMES || !(0..depth).all(is_frame) {
            return None;
        }
        let choices = Choices::of(number(CHOICES))?;
        let mut slots = [[0; SLOT]; MOST_FRAMES];
        for (slot, lent) in slots.iter_mut().zip(numbers[SLOTS..].chunks_exact(SLOT)) {
            *slot = written_back(lent);
        }
        let span = Span { line: number(LINE), column: number(COLUMN), position: number(POSITION) };
        Some(Session { span, depth, tokens: number(TOKENS), bytes: number(BYTES), choices, slots })
    }

    /// Puts what a step has changed at the start of a slice: the numbers before the slots, and the slot of a frame that was entered or
    /// swapped. All other numbers stay.
    pub fn write_step(&self, numbers: &mut [u32], change: Change) {
        self.write_head(numbers);
        if matches!(change, Change::Swap(_) | Change::Enter(_)) {
            let top = self.depth - 1;
            numbers[SLOTS + top * SLOT..][..SLOT].copy_from_slice(&self.slots[top]);
        }
    }

    /// Puts the session's 199 numbers at the start of a slice.
    pub fn write(&self, numbers: &mut [u32]) {
        self.write_head(numbers);
        for (slot, lent) in self.slots.iter().zip(numbers[SLOTS..].chunks_exact_mut(SLOT)) {
            lent.copy_from_slice(slot);
        }
    }

    fn write_head(&self, numbers: &mut [u32]) {
        numbers[POSITION] = self.span.position as u32;
        numbers[LINE] = self.span.line as u32;
        numbers[COLUMN] = self.span.column as u32;
        numbers[DEPTH] = self.depth as u32;
        numbers[TOKENS] = self.tokens as u32;
        numbers[BYTES] = self.bytes as u32;
        numbers[CHOICES] = self.choices.number();
    }

    pub fn top(&self) -> (Frame, Label) {
        self.held(self.depth - 1)
    }

    fn held(&self, slot: usize) -> (Frame, Label) {
        let [frame, start, len] = self.slots[slot];
        (FRAMES[frame as usize], (start as usize, len as usize))
    }

    /// Whether the session is within its bounds (refusal 12), but for the marks.
    pub fn is_good(&self, source: &[u8]) -> bool {
        let inside = |number: usize| number >= 1 && number <= self.span.position + 1;
        let is_bottom = !matches!(self.held(0).0, Frame::VarOffset | Frame::LookingForProperty);
        let has_label = |slot: usize| match self.held(slot) {
            (Frame::Heredoc | Frame::Nowdoc, label) => is_label(source, label),
            _ => true,
        };
        self.span.position <= source.len()
            && inside(self.span.line)
            && inside(self.span.column)
            && is_bottom
            && (0..self.depth).all(has_label)
    }

    /// Changes the stack, which has room and, for leaving, a frame below; `label` is that of a text block's new frame.
    pub fn change(&mut self, change: Change, label: Label) {
        match change {
            Change::Keep => {}
            Change::Swap(frame) => self.slots[self.depth - 1] = slot_of(frame, label),
            Change::Enter(frame) => {
                self.slots[self.depth] = slot_of(frame, label);
                self.depth += 1;
            }
            Change::Leave => self.depth -= 1,
        }
    }
}

/// Whether a label is 1 to 64 identifier bytes of the source.
pub fn is_label(source: &[u8], (start, len): Label) -> bool {
    len >= 1
        && len <= MOST_LABEL
        && source.get(start..start + len).map_or(false, |bytes| bytes.iter().all(|byte| is_identifier(*byte)))
}

/// The frame of a number.
pub fn frame_of(number: usize) -> Option<Frame> {
    FRAMES.get(number).copied()
}

fn slot_of(frame: Frame, label: Label) -> [u32; SLOT] {
    let (start, len) = if matches!(frame, Frame::Heredoc | Frame::Nowdoc) { label } else { NO_LABEL };
    [frame as u32, start as u32, len as u32]
}

/// A slot's numbers as skip, push and pop leave them: no frame is a heredoc without a label, and only a text block has one.
fn written_back(lent: &[u32]) -> [u32; SLOT] {
    let has_label = lent[1] <= 0xffff && lent[2] <= 0xffff;
    match lent[0] {
        4 | 5 if has_label => [lent[0], lent[1], lent[2]],
        0..=8 => [lent[0], 0, 0],
        _ => [Frame::Heredoc as u32, 0, 0],
    }
}
