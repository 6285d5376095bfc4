//! The boundary as the archive has it. A slice passes as a pointer and then a length. Nothing
//! checks these lines against the archive's own source.

use crate::answer::Answer;

/// Where a body stands in its book.
#[repr(C)]
pub struct Stretch {
    pub start: u64,
    pub length: u64,
}

extern "C" {
    pub fn hollyspool_read(book: *const u8, len: usize) -> Answer;
    pub fn hollyspool_body(book: *const u8, len: usize, entry: u64) -> Stretch;
    pub fn hollyspool_judge(
        book: *const u8,
        book_len: usize,
        model: *const u8,
        model_len: usize,
    ) -> Answer;
    pub fn hollyspool_search(
        book: *const u8,
        book_len: usize,
        budget: u64,
        out: *mut u8,
        out_len: usize,
    ) -> Answer;
    pub fn hollyspool_encode(
        book: *const u8,
        book_len: usize,
        out: *mut u8,
        out_len: usize,
    ) -> Answer;
    pub fn hollyspool_assign(
        book: *const u8,
        book_len: usize,
        assignment: *const u8,
        assignment_len: usize,
    ) -> Answer;
    pub fn hollyspool_import(
        text: *const u8,
        text_len: usize,
        n: u64,
        p: u64,
        out: *mut u8,
        out_len: usize,
    ) -> Answer;
    pub fn hollyspool_export(
        book: *const u8,
        book_len: usize,
        out: *mut u8,
        out_len: usize,
    ) -> Answer;
    pub fn hollyspool_judge_ordinary(
        book: *const u8,
        book_len: usize,
        model: *const u8,
        model_len: usize,
    ) -> Answer;
    pub fn hollyspool_search_ordinary(
        book: *const u8,
        book_len: usize,
        budget: u64,
        out: *mut u8,
        out_len: usize,
    ) -> Answer;
    pub fn hollyspool_encode_ordinary(
        book: *const u8,
        book_len: usize,
        out: *mut u8,
        out_len: usize,
    ) -> Answer;
    pub fn hollyspool_assign_ordinary(
        book: *const u8,
        book_len: usize,
        assignment: *const u8,
        assignment_len: usize,
    ) -> Answer;
}
