//! Compares the proved translator with the published Rust: books at the limits and written by hand, random books, books of several
//! functions, damaged copies of both, statements whose parts are right or wrong, books one change away from some; each lent in several ways.
use crate::bench;
use crate::book::Lent;
use crate::cases;
use crate::check::{work_needed, HIGHEST_COUNTER};
use crate::large;
use crate::neighbours::neighbours;
use crate::random::MOST_FUNCTIONS;
use crate::rng::Rng;
use crate::runs;
use crate::written::{self, faulty};
use std::sync::atomic::{AtomicU64, Ordering};
use std::thread;
use std::time::Instant;
use tally::Tally;

mod examine;
mod lend;
mod smaller;
mod tally;

pub use examine::Examiner;

const COPIES: u64 = 2;

/// One random book in so many has 65,000 slots perhaps, and one in so many has its neighbours asked, if it is small.
const LARGE: u64 = 8;
const STRIDE: u64 = 5000;
const SMALL: u64 = 200;

/// One index in so many has a book of several functions too.
const PIECES: u64 = 2;

/// Indices that a thread takes at once.
const STEP: u64 = 64;

/// As much as the published Rust may need for its plain recursion.
const STACK: usize = 1 << 29;

/// The sorts of books, in the order of the summary.
#[derive(Clone, Copy, PartialEq, Eq)]
pub enum Sort {
    Fixed,
    Random,
    Damaged,
    Faulty,
    Near,
    Pieces,
    /// Damaged copies of pieces.
    CutPieces,
}

pub const SORTS: [&str; 7] = ["limits", "random", "damaged", "faulty", "near", "pieces", "cut pieces"];

/// Counters for books that do not ask for one.
const COUNTERS: [u64; 6] = [0, 0, 1, 7, (1 << 32) - 1, 1 << 32];

/// Books that are always the same, and all that is made of so many indices.
pub fn compare(seed: u64, count: u64) -> Result<(), String> {
    run(&fixed(), seed, count)
}

/// The shapes of `compare bench`, fields asked for here and there in shorter books.
pub fn shapes() -> Result<(), String> {
    run(&bench::shapes().into_iter().chain(bench::few_asks()).map(|large| (large.what.to_string(), large.lent)).collect::<Vec<_>>(), 0, 0)
}

fn run(fixed: &[(String, Lent)], seed: u64, count: u64) -> Result<(), String> {
    let start = Instant::now();
    let (next, next_fixed) = (AtomicU64::new(0), AtomicU64::new(0));
    let threads = thread::available_parallelism().map_or(1, usize::from);
    let work = || {
        let mut examiner = Examiner::new();
        let mut tally = Tally::default();
        while let Some((what, lent)) = fixed.get(next_fixed.fetch_add(1, Ordering::Relaxed) as usize) {
            tally.add(Sort::Fixed, &mut examiner, lent, what.len() as u64, || what.clone());
        }
        loop {
            let first = next.fetch_add(STEP, Ordering::Relaxed);
            if first >= count {
                return tally;
            }
            for index in first..count.min(first + STEP) {
                random(&mut tally, &mut examiner, seed, index);
            }
        }
    };
    let tallies: Vec<Tally> = thread::scope(|scope| {
        let spawn = |_| thread::Builder::new().stack_size(STACK).spawn_scoped(scope, work).expect("a thread");
        let workers: Vec<_> = (0..threads).map(spawn).collect();
        workers.into_iter().map(|worker| worker.join().expect("a thread that ends")).collect()
    });
    let tally = tallies.into_iter().fold(Tally::default(), Tally::and);
    tally.print(start.elapsed(), threads);
    tally.result()
}

/// Everything made of one index.
fn random(tally: &mut Tally, examiner: &mut Examiner, seed: u64, index: u64) {
    let mut rng = Rng::new(seed ^ 0x7a115, index);
    let mut lent = runs::book(seed, index, index % LARGE == 0);
    for number in 0..COPIES {
        let copy = runs::copy(&lent, seed, index, number);
        tally.add(Sort::Damaged, examiner, &copy, rng.next(), || format!("seed {seed}, book {index}, copy {number}"));
    }
    lent.counter = counter(&mut rng);
    tally.add(Sort::Random, examiner, &lent, rng.next(), || format!("seed {seed}, book {index}"));
    let statement = faulty::lent(seed, index);
    tally.add(Sort::Faulty, examiner, &statement, rng.next(), || format!("seed {seed}, faulty book {index}"));
    if index % STRIDE == 0 && lent.slices.book[0] <= SMALL {
        neighbours(&lent, |other, what, place| {
            tally.add(Sort::Near, examiner, other, rng.next(), || format!("seed {seed}, book {index}, {what} at {place}"));
        });
    }
    if index % PIECES == 0 {
        piece(tally, examiner, seed, index, &mut rng);
    }
}

/// A book of several functions, a damaged copy of it, and for some all books one change away.
fn piece(tally: &mut Tally, examiner: &mut Examiner, seed: u64, index: u64, rng: &mut Rng) {
    let mut lent = runs::piece(seed, index, MOST_FUNCTIONS);
    let copy = runs::piece_copy(&lent, seed, index, 0);
    tally.add(Sort::CutPieces, examiner, &copy, rng.next(), || format!("seed {seed}, copy of piece {index}"));
    lent.counter = counter(rng);
    tally.add(Sort::Pieces, examiner, &lent, rng.next(), || format!("seed {seed}, piece {index}"));
    let small = runs::piece(seed, index, 3);
    if index % STRIDE == 0 && small.slices.book[0] <= SMALL {
        neighbours(&small, |other, what, place| {
            tally.add(Sort::Near, examiner, other, rng.next(), || format!("seed {seed}, piece {index} of at most 3 functions, {what} at {place}"));
        });
    }
}

/// Any counter that may be lent; now and then one so near to 2^32 that a later function begins above it.
fn counter(rng: &mut Rng) -> u64 {
    match rng.below(10) {
        0..=1 => rng.next() >> 32,
        2..=3 => HIGHEST_COUNTER - rng.below(30) as u64,
        _ => *rng.pick(&COUNTERS),
    }
}

/// The sheets of document 01, an example of each refusal, the limits, large books, those written by hand.
fn fixed() -> Vec<(String, Lent)> {
    let small = cases::books().into_iter().chain(written::books()).map(|(what, slices)| {
        let names = slices.book.get(1).map_or(0, |count| *count as usize);
        (what, Lent { work: work_needed(names.min(1 << 20)), counter: 0, slices })
    });
    large::books().into_iter().map(|large| (large.what.to_string(), large.lent)).chain(small).collect()
}
