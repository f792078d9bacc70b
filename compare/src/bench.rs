//! Times of the proved translator and printer beside the published Rust's `gen_function` and Rust's formatting of the same
//! lines, on random accepted books by size; and their times on shapes that a careless translator is slow on.
use crate::book::{Book, Lent};
use crate::check::{check, Verdict};
use crate::clock::best;
use crate::expect::{expected_of, Expected};
use crate::lines::{self, Lines, Printer};
use crate::oracle;
use crate::runs;
use std::hint::black_box;
use std::time::Duration;
use uvclang::ast::Module;
use uvclang::codegen::access;

mod bindings;
mod copies;
mod counted;
mod hostile;
mod jobs;
mod names;

use jobs::{Bench, Job};

pub use bindings::table as bindings;
pub use counted::{pass, table as instructions};
pub use hostile::{asks, few_asks, shapes, table as slow_shapes};
pub use names::table as names;

/// The best of so many runs counts.
const RUNS: usize = 9;

/// A run upon one book is so many calls, one behind the other.
const CALLS: u32 = 20;

/// A book with all that a run needs, made before.
struct Subject {
    lent: Lent,
    book: Book,
    module: Module,
    lines: Lines,
    text: usize,
}

/// How many entries a book has, how many books, how often its blocks are copied, and whether it may have several functions.
struct Class {
    name: &'static str,
    entries: std::ops::Range<u64>,
    books: usize,
    copies: usize,
    several: bool,
}

const CLASSES: [Class; 5] = [
    Class { name: "small", entries: 10..80, books: 400, copies: 1, several: false },
    Class { name: "middle", entries: 150..500, books: 200, copies: 1, several: false },
    Class { name: "large", entries: 150..500, books: 12, copies: 60, several: false },
    Class { name: "any", entries: 0..u64::MAX, books: 1000, copies: 1, several: false },
    Class { name: "pieces", entries: 0..u64::MAX, books: 400, copies: 1, several: true },
];

/// How the books of a class are met.
#[derive(Clone, Copy)]
enum Meeting {
    /// The best run upon each book, all books added.
    Again,
    /// The best pass over all books, each met once in it.
    Anew,
}

pub fn bench(seed: u64) -> Result<(), String> {
    let classes: Vec<(&Class, Vec<Subject>)> =
        CLASSES.iter().map(|class| Ok((class, subjects(class, seed, class.books)?))).collect::<Result<_, String>>()?;
    println!("ns an entry; the Rust's gen_function makes the text too; format! and write! make the text of the same lines");
    for (meeting, how) in [
        (Meeting::Again, format!("each book by itself: the best of {RUNS} runs of {CALLS} calls")),
        (Meeting::Anew, format!("each book anew: the best of {RUNS} passes over all of them")),
    ] {
        println!("\n{how}");
        heading();
        for (class, subjects) in &classes {
            row(class, subjects, meeting)?;
        }
    }
    counted::table(seed)?;
    names::table()?;
    hostile::table()
}

/// The time that the Rust's `gen_function` takes for the functions of a sound book, in nanoseconds: the best of three calls, of one if it is long.
pub fn rust_time(lent: &Lent) -> Result<u128, String> {
    let Verdict::Sound(book) = check(lent) else { return Err("the book is not sound".to_string()) };
    let module = oracle::module(&book);
    let call = || black_box(access::gen_functions(&module, &book.functions, 0)).is_ok();
    let (_, first) = best(1, call);
    let least = if first < Duration::from_secs(1) { best(2, call).1.min(first) } else { first };
    Ok(least.as_nanos())
}

/// The first accepted books of a class, so many of them.
fn subjects(class: &Class, seed: u64, books: usize) -> Result<Vec<Subject>, String> {
    let mut found = vec![];
    let mut index = 0;
    while found.len() < books {
        let mut lent = if class.several { runs::plain_piece(seed, index) } else { runs::plain(seed, index) };
        index += 1;
        let functions = lent.slices.functions().len();
        if !class.entries.contains(&lent.slices.book[0]) || functions > 1 && !class.several {
            continue;
        }
        lent.counter = 0;
        if class.copies > 1 {
            match copies::copied(&lent, class.copies) {
                Some(more) => lent = more,
                None => continue,
            }
        }
        let (Expected::Accepted(accepted), Some(book)) = expected_of(&lent)? else { continue };
        let lines = lines::read(&lent, &Printer::of_book(&book), &accepted)?;
        found.push(Subject { module: oracle::module(&book), text: accepted.text().len(), lines, book, lent });
    }
    Ok(found)
}

/// The least time of a job upon all subjects, added.
fn least(bench: &mut Bench, meeting: Meeting, job: Job) -> Duration {
    match meeting {
        Meeting::Again => {
            (0..bench.books()).map(|book| best(RUNS, || (0..CALLS).for_each(|_| bench.run(job, book))).1 / CALLS).sum()
        }
        Meeting::Anew => best(RUNS, || (0..bench.books()).for_each(|book| bench.run(job, book))).1,
    }
}

fn heading() {
    print!("{:<8}{:>6}{:>9}{:>9}", "", "books", "entries", "lines");
    println!(
        "{:>7}{:>10}{:>7}{:>7}{:>13}{:>8}{:>7}{:>15}{:>10}{:>15}{:>14}",
        "check", "translate", "print", "both", "gen_function", "format!", "write!", "gen/translate", "gen/both",
        "format!/print", "write!/print",
    );
}

/// A row of a table, from what each job took.
fn print_row(class: &Class, subjects: &[Subject], took: impl Fn(Job) -> f64) {
    let sum = |of: fn(&Subject) -> usize| subjects.iter().map(of).sum::<usize>();
    let (entries, lines) = (sum(|subject| subject.lent.slices.book[0] as usize), sum(|subject| subject.lines.kinds.len()));
    let each = |job: Job| took(job) / entries as f64;
    let ratio = |one: Job, two: Job| took(one) / took(two);
    print!("{:<8}{:>6}{entries:>9}{lines:>9}", class.name, subjects.len());
    println!(
        "{:>7.1}{:>10.1}{:>7.1}{:>7.1}{:>13.1}{:>8.1}{:>7.1}{:>15.1}{:>10.1}{:>15.1}{:>14.1}",
        each(Job::Check), each(Job::Translate), each(Job::Print), each(Job::Both), each(Job::Generate), each(Job::Format),
        each(Job::Write), ratio(Job::Generate, Job::Translate), ratio(Job::Generate, Job::Both),
        ratio(Job::Format, Job::Print), ratio(Job::Write, Job::Print),
    );
}

fn row(class: &Class, subjects: &[Subject], meeting: Meeting) -> Result<(), String> {
    let mut bench = Bench::new(subjects);
    let times = Job::ALL.map(|job| least(&mut bench, meeting, job));
    bench.right().map_err(|wrong| format!("{}: {wrong}", class.name))?;
    print_row(class, subjects, |job| times[job as usize].as_nanos() as f64);
    Ok(())
}
