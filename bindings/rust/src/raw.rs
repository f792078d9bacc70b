//! The three calls as document 01 has them, on lent slices: no allocation, and a number for the answer.
//!
//! Each call ends, stays inside the slices lent to it and keeps nothing; that is proved of the code behind it. What is
//! unsafe here is the call across languages alone.

mod library {
    extern "C" {
        pub fn mivolanjy_check(
            book: *const u64,
            book_length: usize,
            names: *const u8,
            names_length: usize,
            counter: u64,
            work_length: usize,
        ) -> u64;
        pub fn mivolanjy_translate(
            book: *const u64,
            book_length: usize,
            names: *const u8,
            names_length: usize,
            counter: u64,
            work: *mut u64,
            work_length: usize,
            kinds: *mut u16,
            kinds_length: usize,
            operands: *mut u64,
            operands_length: usize,
            lines: *mut u64,
            next: *mut u64,
        ) -> u64;
        pub fn mivolanjy_print(
            book: *const u64,
            book_length: usize,
            names: *const u8,
            names_length: usize,
            kinds: *const u16,
            kinds_length: usize,
            operands: *const u64,
            operands_length: usize,
            text: *mut u8,
            text_length: usize,
            count: *mut u64,
        ) -> u64;
    }
}

/// The first of refusals 1 to 4 that applies, 0 where none does.
pub fn check(book: &[u64], names: &[u8], counter: u64, work_length: usize) -> u64 {
    // SAFETY: two slices are lent for the call, which reads them.
    unsafe { library::mivolanjy_check(book.as_ptr(), book.len(), names.as_ptr(), names.len(), counter, work_length) }
}

/// A reply of the translator.
#[derive(Clone, Copy, Debug, PartialEq, Eq)]
pub struct Reply {
    /// The refusal's number, 0 for none.
    pub refusal: u64,
    pub lines: u64,
    pub next: u64,
}

/// The work slice needs [`work_length`] words; it is all zero afterwards.
pub fn translate(
    book: &[u64],
    names: &[u8],
    counter: u64,
    work: &mut [u64],
    kinds: &mut [u16],
    operands: &mut [u64],
) -> Reply {
    // What no reply has, so that a number which is not written shows.
    let (mut lines, mut next) = (u64::MAX, u64::MAX);
    // SAFETY: two slices are lent for reading, three and two numbers for writing, and `&mut` keeps these apart.
    let refusal = unsafe {
        library::mivolanjy_translate(
            book.as_ptr(),
            book.len(),
            names.as_ptr(),
            names.len(),
            counter,
            work.as_mut_ptr(),
            work.len(),
            kinds.as_mut_ptr(),
            kinds.len(),
            operands.as_mut_ptr(),
            operands.len(),
            &mut lines,
            &mut next,
        )
    };
    Reply { refusal, lines, next }
}

/// The refusal's number, 0 for none, and the count of bytes.
pub fn print(book: &[u64], names: &[u8], kinds: &[u16], operands: &[u64], text: &mut [u8]) -> (u64, u64) {
    let mut count = u64::MAX;
    // SAFETY: four slices are lent for reading, the text and the count for writing.
    let refusal = unsafe {
        library::mivolanjy_print(
            book.as_ptr(),
            book.len(),
            names.as_ptr(),
            names.len(),
            kinds.as_ptr(),
            kinds.len(),
            operands.as_ptr(),
            operands.len(),
            text.as_mut_ptr(),
            text.len(),
            &mut count,
        )
    };
    (refusal, count)
}

/// The least length of a work slice for so many names.
pub fn work_length(names: usize) -> usize {
    8 * names + 64
}
