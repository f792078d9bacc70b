//! The books of a run: random ones, and damaged copies of them. A seed, an index and a copy's number name each.
use crate::book::{encode, Book, Lent};
use crate::check::work_needed;
use crate::damage::{damage, damage_piece};
use crate::random;
use crate::rng::Rng;

/// At the last two, the later functions of a book may begin above 2^32.
const COUNTERS: [u64; 5] = [0, 7, 0, 1 << 32, (1 << 32) - 3];

/// The random book of this index, lent with the shortest work slice.
pub fn book(seed: u64, index: u64, large: bool) -> Lent {
    lent(&random::book(seed, index, large), index)
}

/// The same book with names in ASCII, none of the largest.
pub fn plain(seed: u64, index: u64) -> Lent {
    lent(&random::plain(seed, index, false), index)
}

/// A random book of several functions most of the time, of at most so many.
pub fn piece(seed: u64, index: u64, most: usize) -> Lent {
    lent(&random::piece(seed, index, most), index)
}

/// A piece with names in ASCII.
#[cfg(proved)]
pub fn plain_piece(seed: u64, index: u64) -> Lent {
    lent(&random::plain_piece(seed, index, random::MOST_FUNCTIONS), index)
}

fn lent(book: &Book, index: u64) -> Lent {
    let counter = COUNTERS[index as usize % COUNTERS.len()];
    Lent { slices: encode(book), counter, work: work_needed(book.names.len()) }
}

/// A damaged copy of a book of several functions: one in two has a change of its list of functions.
pub fn piece_copy(lent: &Lent, seed: u64, index: u64, copy: u64) -> Lent {
    damage_piece(lent, &mut Rng::new(!seed ^ 0x7069_6563, index.wrapping_mul(1000).wrapping_add(copy)))
}

/// A damaged copy of the book of this index.
pub fn copy(lent: &Lent, seed: u64, index: u64, copy: u64) -> Lent {
    damage(lent, &mut Rng::new(!seed, index.wrapping_mul(1000).wrapping_add(copy)))
}
