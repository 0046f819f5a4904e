//! Frames of the mode stack and labels, as the numbers of a session tell them.

use crate::numbers::choices::*;

/// A text block's label: a range of the source.
#[derive(Clone, Copy, Debug, PartialEq, Eq, Hash)]
pub struct Label {
    /// Its first byte's position.
    pub start: u32,
    /// How many bytes it has.
    pub len: u32,
}

impl Label {
    /// Its bytes, where they stand within the source.
    pub fn bytes(self, src: &[u8]) -> Option<&[u8]> {
        part(src, self.start, self.len)
    }
}

/// A part of some bytes, where it lies within them.
pub(crate) fn part(bytes: &[u8], start: u32, len: u32) -> Option<&[u8]> {
    let start = start as usize;
    bytes.get(start..start.checked_add(len as usize)?)
}

/// What the reader is within.
#[derive(Clone, Copy, Debug, PartialEq, Eq, Hash)]
pub enum Frame {
    /// Inline text up to a tag.
    Initial,
    /// The script.
    Scripting,
    /// A double-quoted string behind its first interpolation.
    DoubleQuote,
    /// A command between backticks.
    ShellExec,
    /// A heredoc block.
    Heredoc(Label),
    /// A nowdoc block.
    Nowdoc(Label),
    /// Behind `${`.
    LookingForVarname,
    /// At an arrow behind a variable.
    LookingForProperty,
    /// Between `[` and `]` behind a variable.
    VarOffset,
}

impl Frame {
    /// Its slot: its number, and its label's start and length.
    pub(crate) fn slot(self) -> [u32; 3] {
        match self {
            Frame::Initial => [FRAME_INITIAL, 0, 0],
            Frame::Scripting => [FRAME_SCRIPTING, 0, 0],
            Frame::DoubleQuote => [FRAME_DOUBLE_QUOTE, 0, 0],
            Frame::ShellExec => [FRAME_SHELL_EXEC, 0, 0],
            Frame::Heredoc(label) => [FRAME_HEREDOC, label.start, label.len],
            Frame::Nowdoc(label) => [FRAME_NOWDOC, label.start, label.len],
            Frame::LookingForVarname => [FRAME_LOOKING_FOR_VARNAME, 0, 0],
            Frame::LookingForProperty => [FRAME_LOOKING_FOR_PROPERTY, 0, 0],
            Frame::VarOffset => [FRAME_VAR_OFFSET, 0, 0],
        }
    }

    /// The frame of a slot, if its number is one's.
    pub(crate) fn of(slot: [u32; 3]) -> Option<Frame> {
        let [number, start, len] = slot;
        match number {
            FRAME_INITIAL => Some(Frame::Initial),
            FRAME_SCRIPTING => Some(Frame::Scripting),
            FRAME_DOUBLE_QUOTE => Some(Frame::DoubleQuote),
            FRAME_SHELL_EXEC => Some(Frame::ShellExec),
            FRAME_HEREDOC => Some(Frame::Heredoc(Label { start, len })),
            FRAME_NOWDOC => Some(Frame::Nowdoc(Label { start, len })),
            FRAME_LOOKING_FOR_VARNAME => Some(Frame::LookingForVarname),
            FRAME_LOOKING_FOR_PROPERTY => Some(Frame::LookingForProperty),
            FRAME_VAR_OFFSET => Some(Frame::VarOffset),
            _ => None,
        }
    }
}
