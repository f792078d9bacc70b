//! Compares the proved check of a book, and the printer's, with `check.rs`: books at the large limits, random books, books of several
//! functions, damaged copies of each, all books one change away from some, lists of long names, and names of every first and second byte.
use crate::book::Lent;
use crate::check::{check, Verdict, HIGHEST_COUNTER};
use crate::large;
use crate::names;
use crate::neighbours::neighbours;
use crate::proved;
use crate::random::MOST_FUNCTIONS;
use crate::runs;
use crate::show;
use crate::utf8;
use std::time::{Duration, Instant};

const COPIES: u64 = 4;

/// One random book in so many has its neighbours asked, if it is small.
const STRIDE: u64 = 1000;
const SMALL: u64 = 300;

/// Times and answers of a run, and the smallest book on which the two differ.
#[derive(Default)]
struct Run {
    answers: [u64; 5],
    proved: Duration,
    checked: Duration,
    differences: u64,
    smallest: Option<(usize, String)>,
}

impl Run {
    fn add(&mut self, lent: &Lent, place: impl Fn() -> String) {
        let start = Instant::now();
        let found = proved::check(lent);
        let between = Instant::now();
        let owed = owed(lent);
        self.checked += between.elapsed();
        self.proved += between - start;
        self.answers[owed as usize] += 1;
        if found != owed {
            self.differ(lent, format!("{}: {owed} by check.rs, {found} by the proved check", place()));
        }
        if let Err(error) = printer(lent, owed) {
            self.differ(lent, format!("{}: {error}", place()));
        }
    }

    fn differ(&mut self, lent: &Lent, what: String) {
        self.differences += 1;
        let size = 8 * lent.slices.book.len() + lent.slices.names.len();
        if self.smallest.as_ref().is_none_or(|(smallest, _)| size < *smallest) {
            let words = &lent.slices.book;
            let names = show::bytes(&lent.slices.names);
            let lengths = format!("counter {}, work {}", lent.counter, lent.work);
            self.smallest = Some((size, format!("{what}\nbook {words:?}\nnames {names}\n{lengths}")));
        }
    }

    fn print(&self, what: &str) {
        let total: u64 = self.answers.iter().sum();
        let rate = |time: Duration| total as f64 / time.as_secs_f64();
        println!("{what}: {total}, {} differences", self.differences);
        println!("    {:.0} books a second proved, {:.0} by check.rs", rate(self.proved), rate(self.checked));
        for (answer, count) in self.answers.iter().enumerate() {
            let name = if answer == 0 { "sound".to_string() } else { format!("refused {answer}") };
            println!("    {name:<12}{count:>9}  {:6.2} %", 100.0 * *count as f64 / total as f64);
        }
    }

    fn result(self) -> Result<(), String> {
        self.smallest.map_or(Ok(()), |(_, what)| Err(format!("the smallest difference: {what}")))
    }
}

/// The answer of `check.rs`, 0 for a sound book.
fn owed(lent: &Lent) -> u64 {
    match check(lent) {
        Verdict::Refused(number) => number as u64,
        Verdict::Sound(_) => 0,
    }
}

/// Whether the printer says the same of a book without lines: 1 or 2, else no bytes. It is lent no counter, so where that is too large nothing
/// is asked.
fn printer(lent: &Lent, owed: u64) -> Result<(), String> {
    let printed = proved::print(&lent.slices.book, &lent.slices.names, &[], &[], &mut []);
    if lent.counter <= HIGHEST_COUNTER && printed != (if owed < 3 { owed } else { 0 }, 0) {
        return Err(format!("{owed} by check.rs, {printed:?} by the proved printer for no lines"));
    }
    Ok(())
}

pub fn compare(seed: u64, count: u64) -> Result<(), String> {
    large_books()?;
    let [mut books, mut copies, mut pieces, mut cut, mut near, mut lists, mut bytes] = [(); 7].map(|()| Run::default());
    for index in 0..count {
        let lent = runs::book(seed, index, true);
        books.add(&lent, || format!("seed {seed}, book {index}"));
        for number in 0..COPIES {
            let copy = runs::copy(&lent, seed, index, number);
            copies.add(&copy, || format!("seed {seed}, book {index}, copy {number}"));
        }
        let piece = runs::piece(seed, index, MOST_FUNCTIONS);
        pieces.add(&piece, || format!("seed {seed}, piece {index}"));
        for number in 0..COPIES {
            let copy = runs::piece_copy(&piece, seed, index, number);
            cut.add(&copy, || format!("seed {seed}, piece {index}, copy {number}"));
        }
        lists.add(&names::list(seed, index), || format!("seed {seed}, list of names {index}"));
        if index % STRIDE == 0 && lent.slices.book[0] <= SMALL {
            neighbours(&lent, |other, what, place| {
                near.add(other, || format!("seed {seed}, book {index}, {what} at {place}"));
            });
        }
        if index % STRIDE == 0 && piece.slices.book[0] <= SMALL {
            neighbours(&piece, |other, what, place| {
                near.add(other, || format!("seed {seed}, piece {index}, {what} at {place}"));
            });
        }
    }
    utf8::every(seed, |lent, sequence| bytes.add(lent, || format!("bytes {sequence:x?}")));
    books.print("random books");
    copies.print("damaged copies");
    pieces.print("books of several functions");
    cut.print("damaged copies of these");
    near.print("books one change away");
    lists.print("lists of long names");
    bytes.print("every first and second byte, every character");
    [books, copies, pieces, cut, near, lists, bytes].into_iter().try_for_each(Run::result)
}

/// Prints the time of each, the best of three.
fn large_books() -> Result<(), String> {
    println!("{:>9} {:>8} {:>6} {:>9} {:>9}", "entries", "names", "answer", "proved", "check.rs");
    for large in large::books() {
        let (answer, proved) = timed(|| proved::check(&large.lent));
        let (owed, checked) = timed(|| owed(&large.lent));
        let [entries, names] = [large.lent.slices.book[0], large.lent.slices.book[1]];
        println!("{entries:>9} {names:>8} {answer:>6} {proved:>6.2} ms {checked:>6.1} ms  {}", large.what);
        if [answer, owed] != [large.answer; 2] {
            let expected = large.answer;
            return Err(format!("{}: {expected} expected, {owed} by check.rs, {answer} proved", large.what));
        }
        printer(&large.lent, owed).map_err(|error| format!("{}: {error}", large.what))?;
    }
    Ok(())
}

fn timed(answer: impl Fn() -> u64) -> (u64, f64) {
    let mut best = f64::MAX;
    let mut found = 0;
    for _ in 0..3 {
        let start = Instant::now();
        found = answer();
        best = best.min(start.elapsed().as_secs_f64() * 1000.0);
    }
    (found, best)
}
