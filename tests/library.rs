//! The library's calls by include/patterns.h, with safe wrappers, for the packages beside. Only here and in search.rs there is
//! `unsafe`.

/// The value of an answer that has neither text nor line.
pub const NO_VALUE: u64 = u64::MAX;

/// A call's number and value.
#[derive(Clone, Copy, PartialEq, Eq, Debug)]
pub struct Answer {
    pub number: u32,
    pub value: u64,
}

extern "C" {
    fn patterns_setup(store: *mut u8, store_len: usize, text: *const u8, text_len: usize, value: *mut u64) -> u32;
    fn patterns_run(
        store: *mut u8,
        store_len: usize,
        line: *const u8,
        line_len: usize,
        answer: *mut u8,
        answer_len: usize,
        value: *mut u64,
    ) -> u32;
    fn patterns_listing(store: *const u8, store_len: usize, n: usize, answer: *mut u8, answer_len: usize, value: *mut u64)
        -> u32;
}

/// What the value holds before a call, so that a call that leaves it is seen.
const UNTOUCHED: u64 = 0x5555_AAAA_5555_AAAA;

pub fn setup(store: &mut [u8], text: &[u8]) -> Answer {
    let mut value = UNTOUCHED;
    // The slices are the caller's own and do not overlap; the lengths are theirs.
    let number = unsafe { patterns_setup(store.as_mut_ptr(), store.len(), text.as_ptr(), text.len(), &mut value) };
    Answer { number, value }
}

pub fn run(store: &mut [u8], line: &[u8], answer: &mut [u8]) -> Answer {
    let mut value = UNTOUCHED;
    // As above.
    let number = unsafe {
        patterns_run(store.as_mut_ptr(), store.len(), line.as_ptr(), line.len(), answer.as_mut_ptr(), answer.len(), &mut value)
    };
    Answer { number, value }
}

pub fn listing(store: &[u8], n: usize, answer: &mut [u8]) -> Answer {
    let mut value = UNTOUCHED;
    // As above; the store is only read.
    let number = unsafe { patterns_listing(store.as_ptr(), store.len(), n, answer.as_mut_ptr(), answer.len(), &mut value) };
    Answer { number, value }
}
