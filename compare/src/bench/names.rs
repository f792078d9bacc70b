//! Times of the proved check for lists of names, with a book that has nothing else to check, beside a plain check in Rust.
use crate::book::{Lent, Slices};
use crate::check::{work_needed, MOST_NAMES};
use crate::clock::best;
use crate::large::unreachable;
use crate::letters::letter;
use crate::proved;
use crate::rng::Rng;
use std::collections::BTreeSet;
use std::hint::black_box;

/// As many names as a book may have.
const NAMES: usize = MOST_NAMES as usize;

/// The best of so many calls.
const CALLS: usize = 15;

/// What the parts of a name are called.
const WORDS: &[&str] = &[
    "opera", "surtitle", "screen", "cue", "detail", "allocator", "basic_string", "vector", "char_traits", "line_breaker", "timer",
    "unordered_map", "glyph_table", "operator_preview", "stage", "iterator",
];

/// What a cue is called.
const CUES: &[&str] = &[
    "předehra", "dějství", "opona", "jeviště", "zpěvačka", "světlo", "výstup", "dveře", "závěr", "titulek", "nyitány", "felvonás", "függöny",
    "színpad", "énekesnő", "fény", "jelenés", "ajtó", "zárókép", "felirat",
];

/// What an argument list is made of.
const ARGUMENTS: &[&str] = &["i", "m", "PKc", "RKSs", "St6vectorIiSaIiEE", "S1_", "NS_3cueE", "DpOT_"];

/// So many different names, in order.
fn sorted(mut one: impl FnMut() -> String) -> Vec<String> {
    let mut names = BTreeSet::new();
    while names.len() < NAMES {
        names.insert(one());
    }
    names.into_iter().collect()
}

/// A part as the C++ ABI writes it: its length, then its letters.
fn part(word: &str) -> String {
    format!("{}{word}", word.len())
}

/// Names of 8 to 200 bytes as C++ has them. Most stand in one of 300 classes, whose path of namespaces they share, and have a method's
/// name with a number and arguments of their own; one in twenty is a plain name.
fn mangled() -> Vec<String> {
    let mut rng = Rng::new(4, 0);
    let class = |rng: &mut Rng| (0..rng.range(1, 12)).fold("_ZN".to_string(), |path, _| path + &part(*rng.pick(WORDS)));
    let classes: Vec<String> = (0..300).map(|_| class(&mut rng)).collect();
    sorted(|| {
        if rng.chance(50) {
            return format!("{}{:05}", rng.pick(WORDS), rng.below(100_000));
        }
        let method = format!("{}{}", rng.pick(WORDS), rng.below(1000));
        let mut name = rng.pick(&classes).clone() + &part(&method) + "E";
        for _ in 0..rng.range(1, 6) {
            name.push_str(*rng.pick(ARGUMENTS));
        }
        name.truncate(200);
        name
    })
}

/// Names of values where clang keeps none: numbers.
fn numbered() -> Vec<String> {
    let mut number = 0;
    sorted(|| {
        number += 1;
        number.to_string()
    })
}

/// Names of values as clang writes them for C: a word, here and there two of them, and a number.
fn locals() -> Vec<String> {
    let mut rng = Rng::new(4, 1);
    let words = &["add", "call", "arrayidx", "for.body", "if.then", "retval", "incdec.ptr", "cmp", "conv", "tmp"];
    sorted(|| {
        let suffix = if rng.chance(300) { ".i" } else { "" };
        format!("{}{suffix}{}", rng.pick(words), rng.below(30_000))
    })
}

/// Names of cues as Czech and Hungarian houses have them: two words and a number.
fn cues() -> Vec<String> {
    let mut rng = Rng::new(6, 0);
    sorted(|| format!("{}_{}_{}", rng.pick(CUES), rng.pick(CUES), rng.below(10_000)))
}

/// Names of four to twelve characters, none of them in ASCII.
fn outside() -> Vec<String> {
    let mut rng = Rng::new(6, 1);
    sorted(|| (0..rng.range(4, 12)).map(|_| letter(&mut rng)).collect())
}

/// Whether the bytes are names, as one writes it in Rust: `<` goes by the library's comparison of memory.
fn plain(names: &[u8], count: usize) -> bool {
    let control = |name: &str| name.bytes().any(|byte| byte.is_ascii_control());
    let allowed = |name: &[u8]| !name.is_empty() && std::str::from_utf8(name).is_ok_and(|name| !control(name));
    let Some((10, body)) = names.split_last() else { return count == 0 && names.is_empty() };
    let (mut last, mut seen): (&[u8], usize) = (&[], 0);
    for name in body.split(|byte| *byte == 10) {
        if !(allowed(name) && last < name) {
            return false;
        }
        (last, seen) = (name, seen + 1);
    }
    seen == count
}

/// How many bytes each name has in common with the one before it, all added.
fn alike(names: &[&str]) -> usize {
    names.windows(2).map(|two| two[0].bytes().zip(two[1].bytes()).take_while(|(x, y)| x == y).count()).sum()
}

fn row(what: &str, names: &[String]) -> Result<(), String> {
    let names: Vec<&str> = names.iter().map(String::as_str).collect();
    let lent = Lent { slices: Slices::new(&unreachable(&[]), &names), counter: 0, work: work_needed(names.len()) };
    let (answer, checked) = best(CALLS, || proved::check(black_box(&lent)));
    let (sound, plainly) = best(CALLS, || plain(black_box(&lent.slices.names), names.len()));
    if answer != 0 || !sound {
        return Err(format!("{what}: {answer}, in Rust {sound}"));
    }
    let each = |sum: u128| sum as f64 / names.len() as f64;
    let [bytes, alike] = [lent.slices.names.len(), alike(&names)].map(|sum| each(sum as u128));
    println!("{bytes:>8.1}{alike:>8.1}{:>8.1}{:>12.1}  {what}", each(checked.as_nanos()), each(plainly.as_nanos()));
    Ok(())
}

pub fn table() -> Result<(), String> {
    println!("\nfor each of {NAMES} names: its bytes, those alike in the name before it, ns of the check and of a plain one in Rust, the best of {CALLS} calls");
    println!("{:>8}{:>8}{:>8}{:>12}", "bytes", "alike", "check", "plain Rust");
    row("numbers", &numbered())?;
    row("values of C", &locals())?;
    row("C++, 8 to 200 bytes", &mangled())?;
    row("alike but for their ends, 1,000 bytes", &super::hostile::long_names("a", NAMES, 1000))?;
    row("Czech and Hungarian words", &cues())?;
    row("outside ASCII, 4 to 12 characters", &outside())?;
    row("alike but for their ends, 1,000 bytes, outside ASCII", &super::hostile::long_names("ř", NAMES, 1000))
}
