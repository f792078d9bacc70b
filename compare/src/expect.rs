//! What a translator should reply to what it is lent: the one place that knows the whole of it. Every comparison starts here.
use crate::book::{Book, Lent};
use crate::check::{check, Verdict};
use crate::oracle::{self, Accepted, Answer};
use crate::refusal;

pub enum Expected {
    Accepted(Accepted),
    /// 1 to 4 and 7 by our reading of document 01, the others by the published Rust.
    Refused(u8),
    /// Document 01 does not say, or the Rust can't be asked.
    Open(&'static str),
}

/// The published Rust measures types by plain recursion, which can double with each level. Beyond so many steps it is not asked.
pub const MOST_STEPS: u64 = 10_000_000;

/// An error means that the Rust gave something unknown, or another refusal than our own reading: never expected.
pub fn expected(lent: &Lent) -> Result<Expected, String> {
    expected_of(lent).map(|(expected, _)| expected)
}

/// The same, with the book that a sound one's entries stand for.
pub fn expected_of(lent: &Lent) -> Result<(Expected, Option<Book>), String> {
    match check(lent) {
        Verdict::Refused(number) => Ok((Expected::Refused(number), None)),
        Verdict::Sound(book) => Ok((of_book(&book, lent.counter)?, Some(book))),
    }
}

/// What it should reply to a sound book.
pub fn of_book(book: &Book, counter: u64) -> Result<Expected, String> {
    let first = refusal::first(book);
    let asked = !oracle::calls_others(book) && first.steps <= MOST_STEPS;
    if first.refusal == Some(7) {
        // The functions before it must have no fault.
        if asked && first.place > 0 && !matches!(oracle::answer_before(book, first.place, counter), Answer::Accepted(_)) {
            return Err(format!("by our reading function {} is the first with a refusal, 7; the Rust has one before", first.place));
        }
        return Ok(Expected::Refused(7));
    }
    if oracle::calls_others(book) {
        return Ok(Expected::Open("it calls a name that should be marked as reserved"));
    }
    if !asked {
        return Ok(Expected::Open("the Rust would measure its types for too long"));
    }
    let (found, expected) = match oracle::answer(book, counter) {
        Answer::Accepted(accepted) => (None, Expected::Accepted(accepted)),
        Answer::Refused(number) => (Some(number), Expected::Refused(number)),
        Answer::Strange(what) => return Err(format!("the Rust gives something unknown: {what}")),
    };
    if found != first.refusal {
        return Err(format!("the Rust's first refusal is {found:?}, by our reading it is {:?}", first.refusal));
    }
    Ok(expected)
}
