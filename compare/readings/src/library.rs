//! The proved library's functions, as the Rust sees them.

/// What a scan found, as crates/probe lays it out. `number` is 0 for a text, else a refusal at `place`.
#[repr(C)]
#[derive(Clone, Copy, Debug, PartialEq, Eq)]
pub struct Probed {
    pub number: u32,
    pub stop: u32,
    pub place: usize,
    pub detail: usize,
    pub from: usize,
    pub after: usize,
    pub len: usize,
}

extern "C" {
    fn puretakoi_probe_text(
        mode: u32,
        src: *const u8,
        src_len: usize,
        label: *const u8,
        label_len: usize,
        at: usize,
        end: u32,
    ) -> Probed;

    fn puretakoi_probe_value(
        mode: u32,
        src: *const u8,
        src_len: usize,
        label: *const u8,
        label_len: usize,
        at: usize,
        end: u32,
        value: *mut u8,
        value_len: usize,
    ) -> u32;

    fn puretakoi_probe_number(src: *const u8, src_len: usize, at: usize, end: u32) -> Probed;

    fn puretakoi_probe_number_value(
        src: *const u8,
        src_len: usize,
        at: usize,
        end: u32,
        value: *mut u8,
        value_len: usize,
    ) -> u32;
}

/// Asks for the number reading in place of a text's; no mode of the library has this number.
pub const NUMBER: u32 = 100;

/// What a reading is asked: its mode's number, source, label, cursor, and 0 where more may come.
#[derive(Clone, Copy)]
pub struct Question<'a> {
    pub mode: u32,
    pub source: &'a [u8],
    pub label: &'a [u8],
    pub at: usize,
    pub end: u32,
}

/// What ended the text and how long its value is, or why there is none.
pub fn text(question: Question) -> Probed {
    let Question { mode, source, label, at, end } = question;
    if mode == NUMBER {
        // The library reads `source` alone, within its length.
        return unsafe { puretakoi_probe_number(source.as_ptr(), source.len(), at, end) };
    }
    // The library reads `source` and `label` alone, each within its length.
    unsafe { puretakoi_probe_text(mode, source.as_ptr(), source.len(), label.as_ptr(), label.len(), at, end) }
}

/// 0 with the text's value at the start of `value`, or the refusal.
pub fn value(question: Question, value: &mut [u8]) -> u32 {
    let Question { mode, source, label, at, end } = question;
    let (lent, room) = (value.as_mut_ptr(), value.len());
    if mode == NUMBER {
        // The library reads `source`, and writes `value`, each within its length.
        return unsafe { puretakoi_probe_number_value(source.as_ptr(), source.len(), at, end, lent, room) };
    }
    // The library reads `source` and `label`, and reads and writes `value`, each within its length.
    unsafe {
        puretakoi_probe_value(mode, source.as_ptr(), source.len(), label.as_ptr(), label.len(), at, end, lent, room)
    }
}
