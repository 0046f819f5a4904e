//! The functions of libpuretakoi.a, as include/puretakoi.h gives them. A slice is its pointer and its length.

use cases::{Call, Function};

/// Declares the step and the readings, which have one form.
macro_rules! readings {
    ($($name:ident)*) => {
        extern "C" {
            $(fn $name(
                src: *const u8,
                src_len: usize,
                end: u32,
                session: *mut u32,
                session_len: usize,
                list: *mut u32,
                list_len: usize,
                pool: *mut u8,
                pool_len: usize,
                answer: *mut u32,
                answer_len: usize,
            ) -> u32;)*
        }
    };
}

/// The form of the step and the readings.
type Reading = unsafe extern "C" fn(
    *const u8,
    usize,
    u32,
    *mut u32,
    usize,
    *mut u32,
    usize,
    *mut u8,
    usize,
    *mut u32,
    usize,
) -> u32;

readings!(puretakoi_step puretakoi_read_number puretakoi_read_single puretakoi_read_double);

extern "C" {
    fn puretakoi_walk(
        src: *const u8,
        src_len: usize,
        end: u32,
        most: u32,
        session: *mut u32,
        session_len: usize,
        list: *mut u32,
        list_len: usize,
        pool: *mut u8,
        pool_len: usize,
        answer: *mut u32,
        answer_len: usize,
    ) -> u32;
    fn puretakoi_fresh(choices: u32, session: *mut u32, session_len: usize) -> u32;
    fn puretakoi_skip(
        src: *const u8,
        src_len: usize,
        count: usize,
        session: *mut u32,
        session_len: usize,
        answer: *mut u32,
        answer_len: usize,
    ) -> u32;
    fn puretakoi_push(
        src: *const u8,
        src_len: usize,
        frame: u32,
        start: u32,
        len: u32,
        session: *mut u32,
        session_len: usize,
        answer: *mut u32,
        answer_len: usize,
    ) -> u32;
    fn puretakoi_pop(
        src: *const u8,
        src_len: usize,
        session: *mut u32,
        session_len: usize,
        answer: *mut u32,
        answer_len: usize,
    ) -> u32;
    fn puretakoi_classes_of(byte: u8) -> u32;
    fn puretakoi_peek_identifier(src: *const u8, src_len: usize, at: usize) -> usize;
    fn puretakoi_past(part: *const u8, part_len: usize, span: *mut u32, span_len: usize) -> u32;
    fn puretakoi_list_to_file(list: *const u32, list_len: usize, file: *mut u8, file_len: usize) -> u32;
    fn puretakoi_file_to_list(file: *const u8, file_len: usize, list: *mut u32, list_len: usize) -> u32;
    fn puretakoi_find(
        list: *const u32,
        list_len: usize,
        count: usize,
        byte: usize,
        found: *mut u32,
        found_len: usize,
    ) -> u32;
}

/// What is lent to a call.
pub struct Slices<'a> {
    pub source: &'a [u8],
    pub session: &'a mut [u32],
    pub list: &'a mut [u32],
    pub pool: &'a mut [u8],
    pub answer: &'a mut [u32],
}

/// A fresh session, with no guards; the refusal or 0.
#[inline]
pub fn fresh(choices: u32, session: &mut [u32]) -> u32 {
    unsafe { puretakoi_fresh(choices, session.as_mut_ptr(), session.len()) }
}

/// One step, with no guards; the refusal or 0.
#[inline]
pub fn step(end: bool, lent: Slices) -> u32 {
    read_by(puretakoi_step, end as u32, lent)
}

/// At most `most` steps in one call, with no guards; the refusal or 0.
#[inline]
pub fn walk(end: bool, most: u32, lent: Slices) -> u32 {
    walk_by(end as u32, most, lent)
}

/// Makes the call's function on the slices, with the call's numbers, and gives its refusal or 0.
pub fn make_on(call: &Call, lent: Slices) -> u32 {
    let reading = match call.function {
        Function::Step => puretakoi_step,
        Function::Walk => return walk_by(call.end, call.arguments[0] as u32, lent),
        Function::ReadNumber => puretakoi_read_number,
        Function::ReadSingle => puretakoi_read_single,
        Function::ReadDouble => puretakoi_read_double,
        _ => return make_without_tables(call, lent.source, lent.session, lent.answer),
    };
    read_by(reading, call.end, lent)
}

#[inline]
fn read_by(reading: Reading, end: u32, lent: Slices) -> u32 {
    let Slices { source, session, list, pool, answer } = lent;
    // The library reads the source, and reads and writes the others, each within its length; so it is below.
    unsafe {
        reading(
            source.as_ptr(),
            source.len(),
            end,
            session.as_mut_ptr(),
            session.len(),
            list.as_mut_ptr(),
            list.len(),
            pool.as_mut_ptr(),
            pool.len(),
            answer.as_mut_ptr(),
            answer.len(),
        )
    }
}

#[inline]
fn walk_by(end: u32, most: u32, lent: Slices) -> u32 {
    let Slices { source, session, list, pool, answer } = lent;
    unsafe {
        puretakoi_walk(
            source.as_ptr(),
            source.len(),
            end,
            most,
            session.as_mut_ptr(),
            session.len(),
            list.as_mut_ptr(),
            list.len(),
            pool.as_mut_ptr(),
            pool.len(),
            answer.as_mut_ptr(),
            answer.len(),
        )
    }
}

fn make_without_tables(call: &Call, source: &[u8], session: &mut [u32], answer: &mut [u32]) -> u32 {
    let number = |place: usize| call.arguments[place] as u32;
    let (src, src_len) = (source.as_ptr(), source.len());
    let (session, session_len) = (session.as_mut_ptr(), session.len());
    let (answer, answer_len) = (answer.as_mut_ptr(), answer.len());
    unsafe {
        match call.function {
            Function::Fresh => puretakoi_fresh(number(0), session, session_len),
            Function::Skip => puretakoi_skip(src, src_len, call.arguments[0], session, session_len, answer, answer_len),
            Function::Push => {
                let (frame, start, len) = (number(0), number(1), number(2));
                puretakoi_push(src, src_len, frame, start, len, session, session_len, answer, answer_len)
            }
            _ => puretakoi_pop(src, src_len, session, session_len, answer, answer_len),
        }
    }
}

/// All that a byte counts as, flags added up.
pub fn classes_of(byte: u8) -> u32 {
    unsafe { puretakoi_classes_of(byte) }
}

/// The length of the identifier at a position, 0 for none.
pub fn peek_identifier(source: &[u8], at: usize) -> usize {
    unsafe { puretakoi_peek_identifier(source.as_ptr(), source.len(), at) }
}

/// The refusal or 0, with the span in the three numbers moved past all bytes of a part.
pub fn past(part: &[u8], span: &mut [u32]) -> u32 {
    unsafe { puretakoi_past(part.as_ptr(), part.len(), span.as_mut_ptr(), span.len()) }
}

/// The refusal or 0, with the list's records in the file.
pub fn list_to_file(list: &[u32], file: &mut [u8]) -> u32 {
    unsafe { puretakoi_list_to_file(list.as_ptr(), list.len(), file.as_mut_ptr(), file.len()) }
}

/// The refusal or 0, with the file's records in the list.
pub fn file_to_list(file: &[u8], list: &mut [u32]) -> u32 {
    unsafe { puretakoi_file_to_list(file.as_ptr(), file.len(), list.as_mut_ptr(), list.len()) }
}

/// The refusal or 0, with what was found in the slice, with no guards.
pub fn find(list: &[u32], count: usize, byte: usize, found: &mut [u32]) -> u32 {
    unsafe { puretakoi_find(list.as_ptr(), list.len(), count, byte, found.as_mut_ptr(), found.len()) }
}
