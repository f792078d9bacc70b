//! All books one change away from a book: each kind and each telling word at each place, each entry left out or doubled.
use crate::book::{kind, Lent};

/// Kinds up to the first that no entry has.
const KINDS: std::ops::RangeInclusive<u64> = 0..=kind::UNREACHABLE + 1;

/// Words at the edge of some rule.
const WORDS: [u64; 20] = [
    0, 1, 2, 3, 8, 24, 32, 64, 128, 4096, 8192, (1 << 31) - 1, 1 << 31, (1 << 32) - 1, 1 << 32, (1 << 32) + 1, 1 << 63,
    u64::MAX << 31, (u64::MAX << 31) - 1, u64::MAX,
];

/// Hands each of them on, with what was changed: where a function begins, each other function's name too. The book is sound, so it has a name.
pub fn neighbours(lent: &Lent, mut each: impl FnMut(&Lent, &str, usize)) {
    let [count, names] = [lent.slices.book[0], lent.slices.book[1]];
    let count = count as usize;
    let functions: Vec<u64> = lent.slices.functions().iter().map(|function| lent.slices.book[2 + count + function.start]).collect();
    for place in 0..count {
        let mut copy = lent.clone();
        for kind in KINDS {
            copy.slices.book[2 + place] = kind;
            each(&copy, "kind", place);
        }
        copy.slices.book[2 + place] = lent.slices.book[2 + place];
        let word = lent.slices.book[2 + count + place];
        let near = [names - 1, names, names + 1, word.wrapping_sub(1), word.wrapping_add(1)];
        let others = if lent.slices.book[2 + place] == kind::FUNCTION { &functions[..] } else { &[] };
        for word in WORDS.into_iter().chain(near).chain(others.iter().copied()) {
            copy.slices.book[2 + count + place] = word;
            each(&copy, "word", place);
        }
        each(&with_entry(lent, place, 0), "no entry", place);
        each(&with_entry(lent, place, 2), "two entries", place);
    }
}

/// A copy with the entry of a place so many times.
fn with_entry(lent: &Lent, place: usize, times: usize) -> Lent {
    let count = lent.slices.book[0] as usize;
    let mut copy = lent.clone();
    // The word first, so that the kind's place stays.
    for at in [2 + count + place, 2 + place] {
        copy.slices.book.splice(at..=at, vec![lent.slices.book[at]; times]);
    }
    copy.slices.book[0] = (count + times - 1) as u64;
    copy
}
