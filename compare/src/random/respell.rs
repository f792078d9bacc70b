//! Names in letters outside ASCII: a random book has none of them, a few or many. Each stands for one that the book was made with.
use super::names::SPELLINGS;
use crate::book::{encode, Book};
use crate::check::read_with;
use crate::hash::Set;
use crate::letters::letter;
use crate::oracle::is_reserved;
use crate::rng::Rng;

/// How many books in a thousand have a few such names, and how many have many; the others have none.
const FEW: usize = 250;
const MANY: usize = 200;

/// The book with other names for some of its own.
pub fn respelled(book: Book, rng: &mut Rng) -> Book {
    let share = match rng.below(1000) {
        sort if sort < FEW => 150,
        sort if sort < FEW + MANY => 700,
        _ => return book,
    };
    let mut taken: Set<String> = book.names.iter().cloned().collect();
    let mut last = String::new();
    let mut other = |name: &String| {
        if rng.chance(share) && !stays(name) {
            let new = if rng.chance(100) { twin(rng, &last) } else { spelled(rng, name) };
            if !new.is_empty() && taken.insert(new.clone()) {
                last = new;
                return last.clone();
            }
        }
        name.clone()
    };
    let names = book.names.iter().map(&mut other).collect();
    let mut book = read_with(&encode(&book).book, names).expect("a random book is sound");
    book.names.sort_unstable();
    book
}

/// Names that the Rust knows whole.
fn stays(name: &str) -> bool {
    name == "bcmp" || name == "memcmp" || is_reserved(name)
}

/// A name that prints like this one, with other letters outside ASCII.
fn twin(rng: &mut Rng, name: &str) -> String {
    name.chars().map(|c| if c.is_ascii() { c } else { letter(rng) }).collect()
}

/// A name with letters outside ASCII, mostly of the same sort for the Rust as this one.
fn spelled(rng: &mut Rng, name: &str) -> String {
    let [start, middle, end] = match rng.below(20) {
        // Anywhere, so that it nearly is what the name was.
        0..=1 => ["", name, ""],
        2 => ["", *rng.pick(SPELLINGS), ""],
        _ => parts(name),
    };
    let mut middle: Vec<char> = middle.chars().collect();
    match rng.below(4) {
        0 => middle = (0..rng.range(1, 6)).map(|_| letter(rng)).collect(),
        1 => middle.iter_mut().for_each(|c| *c = if rng.chance(500) { letter(rng) } else { *c }),
        _ => {}
    }
    for _ in 0..rng.range(1, 2) {
        let place = rng.below(middle.len() + 1);
        middle.insert(place, letter(rng));
    }
    format!("{start}{}{end}", middle.iter().collect::<String>())
}

/// A name in three: what the Rust looks at in front and behind, and the rest between.
fn parts(name: &str) -> [&str; 3] {
    let start = ["__uvm_", "llvm."].into_iter().find(|start| name.starts_with(start)).unwrap_or("");
    let rest = &name[start.len()..];
    let (middle, end) = rest.split_at(rest.find(".with.overflow.").unwrap_or(rest.len()));
    [start, middle, end]
}
