//! The proved check of a book and translator, as `mivolanjy::raw` has them, upon what is lent here; and the printer.
use crate::book::{Lent, Slices};
use mivolanjy::raw;

pub use raw::{print, Reply};

/// The first of refusals 1 to 4 that applies, 0 where none does.
pub fn check(lent: &Lent) -> u64 {
    raw::check(&lent.slices.book, &lent.slices.names, lent.counter, lent.work)
}

pub fn translate(slices: &Slices, counter: u64, work: &mut [u64], kinds: &mut [u16], operands: &mut [u64]) -> Reply {
    raw::translate(&slices.book, &slices.names, counter, work, kinds, operands)
}
