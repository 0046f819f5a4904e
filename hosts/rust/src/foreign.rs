//! The functions of libpuretakoi.a, as include/puretakoi.h declares them, and a safe call of each. A slice is its pointer and its length.
//!
//! Each call lends slices that Rust holds to be whole and apart, and keeps none; the library asks for nothing else. This is the one
//! place with unsafe code.

use crate::numbers::layout::{ANSWER, ANSWER_COUNTED, FOUND_ENDED, SESSION};

extern "C" {
    fn puretakoi_fresh(choices: u32, session: *mut u32, session_len: usize) -> u32;
    fn puretakoi_walk(
        src: *const u8,
        src_len: usize,
        end: u32,
        most: u32,
        session: *mut u32,
        session_len: usize,
        list: *mut u32,
        list_len: usize,
        pool: *mut u8,
        pool_len: usize,
        answer: *mut u32,
        answer_len: usize,
    ) -> u32;
    fn puretakoi_skip(
        src: *const u8,
        src_len: usize,
        count: usize,
        session: *mut u32,
        session_len: usize,
        answer: *mut u32,
        answer_len: usize,
    ) -> u32;
    fn puretakoi_push(
        src: *const u8,
        src_len: usize,
        frame: u32,
        start: u32,
        len: u32,
        session: *mut u32,
        session_len: usize,
        answer: *mut u32,
        answer_len: usize,
    ) -> u32;
    fn puretakoi_pop(
        src: *const u8,
        src_len: usize,
        session: *mut u32,
        session_len: usize,
        answer: *mut u32,
        answer_len: usize,
    ) -> u32;
    fn puretakoi_classes_of(byte: u8) -> u32;
    fn puretakoi_peek_identifier(src: *const u8, src_len: usize, at: usize) -> usize;
    fn puretakoi_past(part: *const u8, part_len: usize, span: *mut u32, span_len: usize) -> u32;
    fn puretakoi_list_to_file(list: *const u32, list_len: usize, file: *mut u8, file_len: usize) -> u32;
    fn puretakoi_file_to_list(file: *const u8, file_len: usize, list: *mut u32, list_len: usize) -> u32;
    fn puretakoi_find(
        list: *const u32,
        list_len: usize,
        count: usize,
        byte: usize,
        found: *mut u32,
        found_len: usize,
    ) -> u32;
}

/// Declares the step and the readings, which have one form, and which of them is meant.
macro_rules! readings {
    ($($call:ident = $name:ident;)*) => {
        extern "C" {
            $(fn $name(
                src: *const u8,
                src_len: usize,
                end: u32,
                session: *mut u32,
                session_len: usize,
                list: *mut u32,
                list_len: usize,
                pool: *mut u8,
                pool_len: usize,
                answer: *mut u32,
                answer_len: usize,
            ) -> u32;)*
        }

        /// The step, or a reading.
        #[derive(Clone, Copy)]
        pub enum Call {
            $($call,)*
        }

        /// The step or a reading on lent slices.
        pub fn read(call: Call, src: &[u8], end: u32, session: &mut Numbers, list: &mut [u32], pool: &mut [u8]) -> Answer {
            let function = match call {
                $(Call::$call => $name,)*
            };
            let mut answer = [0; ANSWER];
            unsafe {
                function(
                    src.as_ptr(), src.len(), end, session.as_mut_ptr(), SESSION, list.as_mut_ptr(), list.len(),
                    pool.as_mut_ptr(), pool.len(), answer.as_mut_ptr(), ANSWER,
                )
            };
            answer
        }
    };
}

readings! {
    Step = puretakoi_step;
    Number = puretakoi_read_number;
    Single = puretakoi_read_single;
    Double = puretakoi_read_double;
}

/// A session's numbers.
pub type Numbers = [u32; SESSION];

/// An answer's numbers.
pub type Answer = [u32; ANSWER];

/// An answer's numbers, and how many steps were done.
pub type Counted = [u32; ANSWER_COUNTED];

/// A fresh session. The library of this version takes all choices of the crate, so it panics where one is refused.
pub fn fresh(choices: u32) -> Numbers {
    let mut session = [0; SESSION];
    let refusal = unsafe { puretakoi_fresh(choices, session.as_mut_ptr(), SESSION) };
    assert!(
        refusal == 0,
        "the library refuses the choices {} with {}, for it is older than this crate: take both from one version",
        choices,
        refusal
    );
    session
}

/// At most `most` steps on lent slices.
pub fn walk(src: &[u8], end: u32, most: u32, session: &mut Numbers, list: &mut [u32], pool: &mut [u8]) -> Counted {
    let mut answer = [0; ANSWER_COUNTED];
    let (numbers, answered) = (session.as_mut_ptr(), answer.as_mut_ptr());
    let (places, values) = (list.as_mut_ptr(), pool.as_mut_ptr());
    unsafe {
        puretakoi_walk(
            src.as_ptr(),
            src.len(),
            end,
            most,
            numbers,
            SESSION,
            places,
            list.len(),
            values,
            pool.len(),
            answered,
            ANSWER_COUNTED,
        )
    };
    answer
}

/// The cursor goes on.
pub fn skip(src: &[u8], count: usize, session: &mut Numbers) -> Answer {
    let mut answer = [0; ANSWER];
    unsafe {
        puretakoi_skip(src.as_ptr(), src.len(), count, session.as_mut_ptr(), SESSION, answer.as_mut_ptr(), ANSWER)
    };
    answer
}

/// One frame more: its number, and its label's start and length.
pub fn push(src: &[u8], frame: [u32; 3], session: &mut Numbers) -> Answer {
    let [number, start, len] = frame;
    let mut answer = [0; ANSWER];
    let (numbers, answered) = (session.as_mut_ptr(), answer.as_mut_ptr());
    unsafe { puretakoi_push(src.as_ptr(), src.len(), number, start, len, numbers, SESSION, answered, ANSWER) };
    answer
}

/// One frame less.
pub fn pop(src: &[u8], session: &mut Numbers) -> Answer {
    let mut answer = [0; ANSWER];
    unsafe { puretakoi_pop(src.as_ptr(), src.len(), session.as_mut_ptr(), SESSION, answer.as_mut_ptr(), ANSWER) };
    answer
}

/// All that a byte counts as, flags added up.
pub fn classes_of(byte: u8) -> u32 {
    unsafe { puretakoi_classes_of(byte) }
}

/// How many bytes the identifier at a place has, 0 for none.
pub fn peek_identifier(src: &[u8], at: usize) -> usize {
    unsafe { puretakoi_peek_identifier(src.as_ptr(), src.len(), at) }
}

/// Line, column and position moved past a part; the refusal, or 0.
pub fn past(part: &[u8], span: &mut [u32; 3]) -> u32 {
    unsafe { puretakoi_past(part.as_ptr(), part.len(), span.as_mut_ptr(), span.len()) }
}

/// All records of a list as a file; the refusal, or 0.
pub fn list_to_file(list: &[u32], file: &mut [u8]) -> u32 {
    unsafe { puretakoi_list_to_file(list.as_ptr(), list.len(), file.as_mut_ptr(), file.len()) }
}

/// All records of a file as a list; the refusal, or 0.
pub fn file_to_list(file: &[u8], list: &mut [u32]) -> u32 {
    unsafe { puretakoi_file_to_list(file.as_ptr(), file.len(), list.as_mut_ptr(), list.len()) }
}

/// Which of the first `count` records of a list is under a byte, and its end; the refusal, or 0.
pub fn find(list: &[u32], count: usize, byte: usize, found: &mut [u32; FOUND_ENDED]) -> u32 {
    unsafe { puretakoi_find(list.as_ptr(), list.len(), count, byte, found.as_mut_ptr(), FOUND_ENDED) }
}

#[cfg(test)]
mod tests {
    use super::fresh;

    #[test]
    fn every_choice_is_taken() {
        for choices in 0..4 {
            assert_eq!(fresh(choices)[..8], [0, 1, 1, 1, 0, 0, choices, 0]);
        }
    }

    /// What an older library does with a choice of this version, this one does with a flag that it has not.
    #[test]
    #[should_panic(expected = "the library refuses the choices 4 with 12, for it is older than this crate: take both")]
    fn an_older_library_is_told() {
        fresh(4);
    }
}
