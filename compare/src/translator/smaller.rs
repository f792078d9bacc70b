//! Makes a book that shows a difference smaller: stretches of entries, then names that no entry has, are left out while it
//! still shows one of the same sort.
use super::lend::{Difference, Found};
use super::Examiner;
use crate::book::{kind, Lent};

/// Beyond so many entries it would take too long.
const MOST: u64 = 3000;
const STRETCHES: [usize; 12] = [64, 32, 16, 9, 8, 7, 6, 5, 4, 3, 2, 1];

fn without(lent: &Lent, start: usize, length: usize) -> Lent {
    let count = lent.slices.book[0] as usize;
    let mut copy = lent.clone();
    // The words first, so that the kinds' places stay.
    for at in [2 + count + start, 2 + start] {
        copy.slices.book.drain(at..at + length);
    }
    copy.slices.book[0] = (count - length) as u64;
    copy
}

/// A copy without a name; none where an entry has it, or the names are not those that the book counts.
fn without_name(lent: &Lent, name: u64) -> Option<Lent> {
    let mut copy = lent.clone();
    let count = lent.slices.book[0] as usize;
    for place in 0..count {
        // The number behind which the name's own stands.
        let shift = match lent.slices.book[2 + place] {
            kind::DEFINED..=kind::NAMED_STRUCT | kind::FUNCTION | kind::BLOCK | kind::NAMED | kind::TARGET => 0,
            kind::LOCAL | kind::GLOBAL => 0,
            kind::PARAM | kind::BIN..=kind::FENCE => 1,
            _ => continue,
        };
        let word = &mut copy.slices.book[2 + count + place];
        if *word == name + shift {
            return None;
        }
        *word -= (*word > name + shift) as u64;
    }
    let mut names: Vec<&[u8]> = lent.slices.names.split_inclusive(|byte| *byte == 10).collect();
    if names.len() as u64 != lent.slices.book[1] {
        return None;
    }
    names.remove(name as usize);
    copy.slices.names = names.concat();
    copy.slices.book[1] -= 1;
    copy.work = copy.work.saturating_sub(8);
    Some(copy)
}

/// The smallest book found, and its difference.
pub fn smaller(examiner: &mut Examiner, lent: &Lent, seed: u64, sort: Difference) -> Option<(Lent, Found)> {
    let mut best = None;
    let mut lent = lent.clone();
    let length = lent.slices.book.len() as u64;
    if length < 2 || length > 2 * MOST + 2 || lent.slices.book[0] != (length - 2) / 2 || length % 2 == 1 {
        return None;
    }
    let mut try_copy = |lent: &mut Lent, copy: Lent| match examiner.examine(&copy, seed).difference {
        Some(found) if found.0 == sort => {
            best = Some((copy.clone(), found));
            *lent = copy;
            true
        }
        _ => false,
    };
    loop {
        let before = lent.slices.book[0];
        for length in STRETCHES {
            let mut start = 0;
            while start + length <= lent.slices.book[0] as usize {
                let copy = without(&lent, start, length);
                start += !try_copy(&mut lent, copy) as usize;
            }
        }
        if lent.slices.book[0] == before {
            break;
        }
    }
    if lent.slices.book[1] <= MOST {
        for name in (0..lent.slices.book[1]).rev() {
            if let Some(copy) = without_name(&lent, name) {
                try_copy(&mut lent, copy);
            }
        }
    }
    best
}
