//! UTF-8 by itself, after the table of RFC 3629. For the check: every first and second byte, and every character, in names short and long.
//! For the definition in crates/names: random lists of bytes, whether they are well-formed, whether they are names, and their spelling.
#[cfg(proved)]
use crate::book::{Lent, Slices};
use crate::check;
#[cfg(proved)]
use crate::check::work_needed;
#[cfg(proved)]
use crate::large::unreachable;
use crate::letters::{character, ill_formed};
use crate::oracle::sanitize;
use crate::rng::Rng;
use crate::scratch::{numbers, Scratch};

/// Both sides of every bound that a second, third or fourth byte has.
const BOUNDS: [u8; 8] = [0x7f, 0x80, 0x8f, 0x90, 0x9f, 0xa0, 0xbf, 0xc0];

// ---- for the check

/// What may stand behind a first and a second byte.
#[cfg(proved)]
const TAILS: [&[u8]; 12] = [
    b"", b"\x80", b"\xbf", b"\x7f", b"\xc0", b"\x80\x80", b"\xbf\xbf", b"\x80\x7f", b"\xbf\xc0", b"\xc0\x80", b"\xbf\x80A", b"\x80\x80\x80",
];

/// The code reads so many bytes at once.
#[cfg(proved)]
const WORD: usize = 8;

#[cfg(proved)]
fn every_pair() -> impl Iterator<Item = Vec<u8>> {
    let pairs = (0..=255u8).flat_map(|first| (0..=255u8).map(move |second| [first, second]));
    pairs.flat_map(|pair| TAILS.iter().map(move |tail| [&pair, *tail].concat()))
}

/// Every first byte with up to three bytes at the bounds behind it.
#[cfg(proved)]
fn every_bound() -> impl Iterator<Item = Vec<u8>> {
    let mut ends: Vec<Vec<u8>> = vec![vec![]];
    for start in 0..1 + BOUNDS.len() + BOUNDS.len().pow(2) {
        let longer = BOUNDS.map(|byte| [&ends[start][..], &[byte]].concat());
        ends.extend(longer);
    }
    (0..=255u8).flat_map(move |first| ends.clone().into_iter().map(move |end| [&[first], &end[..]].concat()))
}

/// Every character outside ASCII.
#[cfg(proved)]
fn every_character() -> impl Iterator<Item = Vec<u8>> {
    ('\u{80}'..=char::MAX).map(|c| c.to_string().into_bytes())
}

/// What stands behind a sequence: more of its name, the name's end, or nothing at all.
#[cfg(proved)]
const ENDINGS: [Ending; 3] = [Ending::Name, Ending::End, Ending::Nothing];

#[cfg(proved)]
#[derive(Clone, Copy, PartialEq)]
enum Ending {
    Name,
    End,
    Nothing,
}

/// Puts a sequence into a name, at this offset in one of its words, with this behind it. The rest is drawn: how long the name is, other names
/// before and after it, and now and then that the end of a name that goes on is missing.
#[cfg(proved)]
fn place(lent: &mut Lent, rng: &mut Rng, offset: usize, sequence: &[u8], ending: Ending) {
    let Slices { book, names } = &mut lent.slices;
    names.clear();
    book[1] = 1;
    if rng.chance(300) {
        names.resize(rng.range(1, 8), b'!');
        names.push(b'\n');
        book[1] += 1;
    }
    let before = offset + WORD * *rng.pick(&[0, 0, 1, 3]);
    let letters = rng.below(before / 2 + 1) * rng.below(2);
    names.extend("é".repeat(letters).bytes());
    names.resize(names.len() + before - 2 * letters, b'a');
    names.extend_from_slice(sequence);
    if ending == Ending::Name {
        names.resize(names.len() + rng.range(1, 11), b'a');
    }
    let end = if ending == Ending::Nothing { 0 } else { rng.below(10) };
    if end > 0 || ending == Ending::End {
        names.push(b'\n');
    }
    if end > 6 {
        names.extend("\u{10ffff}".repeat(5).bytes());
        names.push(b'\n');
        book[1] += 1;
    }
}

/// Hands on each sequence with a book that has it in one of its names.
#[cfg(proved)]
pub fn every(seed: u64, mut each: impl FnMut(&Lent, &[u8])) {
    let mut rng = Rng::new(seed ^ 0x75_7466, 0);
    let mut lent = Lent { slices: Slices::new(&unreachable(&[]), &["a"]), counter: 0, work: work_needed(3) };
    for sequence in every_pair().chain(every_character()) {
        for ending in ENDINGS {
            let offset = rng.below(WORD);
            place(&mut lent, &mut rng, offset, &sequence, ending);
            each(&lent, &sequence);
        }
    }
    for sequence in every_bound() {
        for (offset, ending) in (0..WORD).flat_map(|offset| ENDINGS.map(|ending| (offset, ending))) {
            place(&mut lent, &mut rng, offset, &sequence, ending);
            each(&lent, &sequence);
        }
    }
}

// ---- the definition

const SCRATCH: Scratch = Scratch {
    name: "utf8",
    crates: &["names"],
    module: None,
    head: "use Rattle.std.specs.Prelude.{Bool, true, false, ◌≡◌, refl, [], ◌∷◌}
use Rattle.names.specs.Text.{open_text}
use Rattle.names.specs.Utf8.{well_formed, open_utf8}
use Rattle.names.specs.Name.{accepted, open_name}
use Rattle.names.specs.Spelling.{sanitize, open_spelling}
",
    per_file: 50,
    unfolding: "open_text open_utf8 open_name open_spelling",
};

/// Up to some twenty bytes, none of them 10: a first byte with others at the bounds behind it, or characters with ill-formed bytes among them.
fn bytes(rng: &mut Rng) -> Vec<u8> {
    let mut bytes = vec![];
    let parts = if rng.chance(20) { 0 } else { rng.range(1, 5) };
    for _ in 0..parts {
        match rng.below(8) {
            0..=1 => {
                let least = *rng.pick(&[0, 0xbf, 0xbf, 0xe0, 0xf0]);
                bytes.push(rng.range(least, 255) as u8);
                bytes.extend((0..rng.below(4)).map(|_| *rng.pick(&BOUNDS)));
            }
            2 => bytes.extend(ill_formed(rng)),
            _ => bytes.extend(character(rng, 700).to_string().bytes()),
        }
    }
    bytes.iter_mut().filter(|byte| **byte == 10).for_each(|byte| *byte = 11);
    bytes
}

/// What is owed for a list of bytes: whether it is well-formed, whether it is a name, and for one that is well-formed its spelling.
fn equations(bytes: &[u8]) -> Vec<String> {
    let list = |bytes: &[u8]| numbers(bytes.iter().map(|byte| u64::from(*byte)));
    let text = std::str::from_utf8(bytes).ok();
    let (here, line) = (list(bytes), list(&[bytes, b"\n"].concat()));
    let (formed, named) = (text.is_some(), check::name(bytes).is_some());
    let tests = format!("◌≡◌ {{A = Bool × Bool}} (well_formed ({here}), accepted ({line}) 1) ({formed}, {named})");
    let spelling = text.map(|text| format!("sanitize ({here}) ≡ ({})", list(sanitize(text).as_bytes())));
    [tests].into_iter().chain(spelling).collect()
}

/// Whether the definition says of byte lists what Rust says, by computation.
pub fn definitions(seed: u64, count: u64) -> Result<(), String> {
    let lists: Vec<Vec<u8>> = (0..count).map(|index| bytes(&mut Rng::new(seed, index))).collect();
    let owed: Vec<(usize, String)> =
        lists.iter().enumerate().flat_map(|(place, bytes)| equations(bytes).into_iter().map(move |owed| (place, owed))).collect();
    let differing = SCRATCH.differing(&owed.iter().map(|(_, equation)| equation.clone()).collect::<Vec<_>>())?;
    let formed = lists.iter().filter(|bytes| std::str::from_utf8(bytes).is_ok()).count();
    let names = lists.iter().filter(|bytes| check::name(bytes).is_some()).count();
    println!("{count} lists, of these well-formed {formed}, names {names}; {} of {} equations agreed", owed.len() - differing.len(), owed.len());
    differing.first().map_or(Ok(()), |&place| {
        let list = owed[place].0;
        Err(format!("the first difference: seed {seed}, list {list}: {:x?}\n{}", lists[list], owed[place].1))
    })
}
