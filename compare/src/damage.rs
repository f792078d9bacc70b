//! Damaged copies of a book: what a translator may be lent by mistake. `check` gives the verdict; some copies stay sound.
use crate::book::{function_places, kind, Lent, Slices};
use crate::letters::{ill_formed, letter};
use crate::rng::Rng;

/// A copy with one to three changes.
pub fn damage(lent: &Lent, rng: &mut Rng) -> Lent {
    let mut copy = lent.clone();
    for _ in 0..*rng.pick(&[1, 1, 1, 2, 3]) {
        match rng.below(20) {
            0..=13 => change_entries(&mut copy.slices, rng),
            14..=15 => change_slice(&mut copy.slices.book, rng),
            16..=18 => change_names(&mut copy.slices, rng),
            _ => change_lengths(&mut copy, rng),
        }
    }
    copy
}

/// A copy of a book of several functions: its list of functions is changed, or it is damaged like any other.
pub fn damage_piece(lent: &Lent, rng: &mut Rng) -> Lent {
    if rng.chance(500) {
        return damage(lent, rng);
    }
    let mut copy = lent.clone();
    change_functions(&mut copy.slices, rng);
    if rng.chance(200) { damage(&copy, rng) } else { copy }
}

/// Changes of the list of functions. Names that stand twice, and ends that are missing or stand twice, are a 1; other orders and fewer functions
/// leave a sound book, in which some calls may find no function.
fn change_functions(slices: &mut Slices, rng: &mut Rng) {
    let mut entries = entries_of(&slices.book);
    let places = function_places(&entries.iter().map(|entry| entry.0).collect::<Vec<_>>());
    if places.is_empty() {
        return;
    }
    let one = rng.pick(&places).clone();
    let other = rng.pick(&places).clone();
    let end = (kind::END, 0);
    match rng.below(14) {
        // A name twice, or one that any other entry has.
        0..=1 => entries[one.start].1 = entries[other.start].1,
        2 => entries[one.start].1 = rng.below(slices.book.get(1).map_or(1, |count| *count as usize).max(1)) as u64,
        3 => {
            entries.pop();
        }
        4 => entries.push(end),
        5 => entries.insert(one.start, end),
        // The end of a function's blocks.
        6 => {
            entries.remove(one.end - 1);
        }
        7 => entries.insert(one.end, end),
        // A function goes, stands twice, or trades places.
        8 => {
            entries.drain(one);
        }
        9 => {
            let part = entries[one].to_vec();
            entries.splice(other.start..other.start, part);
        }
        10..=11 => {
            let (first, second) = if one.start <= other.start { (one, other) } else { (other, one) };
            if first.start < second.start {
                let swapped = [&entries[second.clone()], &entries[first.end..second.start], &entries[first.clone()]].concat();
                entries.splice(first.start..second.end, swapped);
            }
        }
        // A mark or a struct behind a function, or for one.
        12 => {
            let name = entries[other.start].1;
            let part = *rng.pick(&[(kind::DEFINED, name), (kind::RESERVED, name), (kind::NAMED_STRUCT, name), (kind::OPAQUE, 0)]);
            entries.insert(if rng.chance(500) { one.start } else { 0 }, part);
        }
        _ => entries.truncate(one.end),
    }
    *slices = slices.with_entries(&entries);
}

/// The entries of a slice, as far as it has them.
fn entries_of(book: &[u64]) -> Vec<(u64, u64)> {
    let body = book.get(2..).unwrap_or(&[]);
    let (kinds, words) = body.split_at(body.len() / 2);
    kinds.iter().copied().zip(words.iter().copied()).collect()
}

fn change_entries(slices: &mut Slices, rng: &mut Rng) {
    let mut entries = entries_of(&slices.book);
    if entries.is_empty() {
        return;
    }
    let at = rng.below(entries.len());
    let from = rng.below(entries.len());
    match rng.below(18) {
        0 => entries[at].0 = random_kind(rng),
        1 => entries[at].0 = near_kind(entries[at].0, rng),
        2 => entries[at].1 = random_word(entries[at].1, rng),
        3 => entries[at].1 = entries[from].1,
        4 => {
            entries.remove(at);
        }
        5 => entries.insert(at, (random_kind(rng), 0)),
        6 => entries.insert(at, entries[from]),
        7 => entries.swap(at, from),
        8 => entries.truncate(at),
        9 => entries.push((random_kind(rng), 0)),
        10 => {
            // A stretch stands twice: a whole part now and then.
            let end = (from + rng.range(1, 8)).min(entries.len());
            let part = entries[from..end].to_vec();
            entries.splice(at..at, part);
        }
        11 => entries[at] = entries[from],
        _ => change_meaning(&mut entries, rng),
    }
    *slices = slices.with_entries(&entries);
}

/// Changes that often leave a sound book which says something else.
fn change_meaning(entries: &mut [(u64, u64)], rng: &mut Rng) {
    for _ in 0..20 {
        let entry = &mut entries[rng.below(entries.len())];
        match entry.0 {
            kind::INT => entry.1 = *rng.pick(&[1, 8, 16, 32, 64, 0, 7, 33, 128]),
            kind::ARRAY | kind::PACKED_ARRAY => entry.1 = random_word(entry.1, rng),
            kind::INTEGER => entry.1 = *rng.pick(&[1 << 31, (1 << 31) - 1, u64::MAX << 31, (u64::MAX << 31) - 1, u64::MAX]),
            kind::NUMBER => entry.1 = *rng.pick(&[0, 1, 2, 3, 8, 4096, 8192, u32::MAX as u64, 1 << 32]),
            kind::LOCAL..=kind::GLOBAL => entry.0 ^= 1,
            kind::NULL..=kind::OTHER => entry.0 = kind::NULL + rng.below(5) as u64,
            40..=52 => entry.0 = 40 + rng.below(13) as u64,
            53..=58 => entry.0 = 53 + rng.below(6) as u64,
            60..=69 => entry.0 = 60 + rng.below(10) as u64,
            _ => continue,
        }
        return;
    }
}

fn random_kind(rng: &mut Rng) -> u64 {
    if rng.chance(950) { rng.below(96) as u64 } else { rng.next() >> rng.below(64) }
}

fn near_kind(kind: u64, rng: &mut Rng) -> u64 {
    if rng.chance(500) { kind.wrapping_add(1) } else { kind.wrapping_sub(1) }
}

fn random_word(word: u64, rng: &mut Rng) -> u64 {
    match rng.below(5) {
        0 => word.wrapping_add(1),
        1 => word.wrapping_sub(1),
        2 => word ^ (1 << rng.below(64)),
        3 => rng.below(100) as u64,
        _ => rng.next() >> rng.below(64),
    }
}

/// The slice itself: its counts and its length.
fn change_slice(book: &mut Vec<u64>, rng: &mut Rng) {
    match rng.below(5) {
        0 => book.push(rng.below(100) as u64),
        1 => book.truncate(rng.below(book.len() + 1)),
        2 if !book.is_empty() => book[0] = random_word(book[0], rng),
        3 if book.len() > 1 => book[1] = random_word(book[1], rng),
        _ => {
            book.pop();
        }
    }
}

fn change_names(slices: &mut Slices, rng: &mut Rng) {
    let names = &mut slices.names;
    if names.is_empty() {
        names.extend_from_slice(b"a\n");
        return;
    }
    let at = rng.below(names.len());
    match rng.below(12) {
        0 => names[at] = *rng.pick(&[0, 9, 10, 13, 31, 32, 126, 127, 128, 255]),
        1 => names[at] = rng.range(32, 126) as u8,
        2 => {
            names.remove(at);
        }
        3 => names.insert(at, rng.range(32, 126) as u8),
        4 => names.insert(at, 10),
        5 => names.truncate(at),
        6 => names[at] = rng.range(128, 255) as u8,
        7..=8 => insert(names, at, &ill_formed(rng)),
        9 => insert(names, at, letter(rng).to_string().as_bytes()),
        10 => {
            // Two names trade places.
            let mut lines: Vec<Vec<u8>> = names.split_inclusive(|byte| *byte == 10).map(<[u8]>::to_vec).collect();
            let (one, two) = (rng.below(lines.len()), rng.below(lines.len()));
            lines.swap(one, two);
            *names = lines.concat();
        }
        _ => {
            // One name goes or comes, and the count follows.
            let more = rng.chance(500);
            if more {
                names.extend_from_slice(b"~~~~~~~~\n");
            } else {
                let end = names[at..].iter().position(|byte| *byte == 10).map_or(names.len(), |end| at + end + 1);
                let start = names[..at].iter().rposition(|byte| *byte == 10).map_or(0, |start| start + 1);
                names.drain(start..end);
            }
            if let Some(count) = slices.book.get_mut(1) {
                *count = if more { count.wrapping_add(1) } else { count.wrapping_sub(1) };
            }
        }
    }
}

fn insert(names: &mut Vec<u8>, at: usize, bytes: &[u8]) {
    names.splice(at..at, bytes.iter().copied());
}

fn change_lengths(lent: &mut Lent, rng: &mut Rng) {
    if rng.chance(500) {
        lent.counter = *rng.pick(&[0, 1, 1 << 32, (1 << 32) + 1, u64::MAX]);
    } else {
        lent.work = if rng.chance(500) { lent.work.saturating_sub(1) } else { rng.below(lent.work) };
    }
}
