//! What random books and damaged copies meet, counted.
use crate::book::{encode, Lent};
use crate::check::{check, Verdict};
use crate::expect::{expected, Expected};
use crate::features::{FEATURES, WHOLE};
use crate::oracle;
use crate::random::{self, MOST_FUNCTIONS};
use crate::refusal;
use crate::runs;
use crate::written::faulty;
use std::time::Instant;

const COPIES: u64 = 4;
const PIECE_COPIES: u64 = 2;

/// How often each answer came.
#[derive(Default)]
struct Tally {
    accepted: u64,
    refused: [u64; 22],
    open: u64,
    lines: u64,
}

impl Tally {
    fn add(&mut self, expected: &Expected) {
        match expected {
            Expected::Accepted(accepted) => {
                self.accepted += 1;
                self.lines += accepted.lines.len() as u64;
            }
            Expected::Refused(number) => self.refused[*number as usize] += 1,
            Expected::Open(_) => self.open += 1,
        }
    }

    fn print(&self) {
        let total = self.accepted + self.open + self.refused.iter().sum::<u64>();
        let row = |what: &str, count: u64| println!("{what:<12}{count:>9}  {:6.2} %", 100.0 * count as f64 / total as f64);
        row("accepted", self.accepted);
        for (number, count) in self.refused.iter().enumerate().filter(|(_, count)| **count > 0) {
            row(&format!("refused {number}"), *count);
        }
        if self.open > 0 {
            row("open", self.open);
        }
    }
}

/// Random books.
pub fn books(seed: u64, count: u64) -> Result<(), String> {
    rate(seed, count, false);
    rate(seed, count, true);
    let mut tally = Tally::default();
    let mut kinds = [0u64; 96];
    let (mut features, mut whole) = (vec![0u64; FEATURES.len()], vec![0u64; WHOLE.len()]);
    let mut entries = 0;
    for index in 0..count {
        let lent = runs::book(seed, index, true);
        let place = |error| format!("seed {seed}, book {index}: {error}");
        let expected = expected(&lent).map_err(place)?;
        if let Expected::Refused(1 | 2 | 4) = expected {
            return Err(place("a random book is not sound".to_string()));
        }
        tally.add(&expected);
        entries += lent.slices.book[0];
        if let Expected::Accepted(_) = expected {
            lent.slices.kinds().iter().for_each(|kind| kinds[*kind as usize] += 1);
            let Verdict::Sound(book) = check(&lent) else { unreachable!() };
            for (found, (_, has)) in features.iter_mut().zip(FEATURES) {
                *found += book.functions.iter().any(|function| has(&book, function)) as u64;
            }
            for (found, (_, has)) in whole.iter_mut().zip(WHOLE) {
                *found += has(&book) as u64;
            }
        }
    }
    tally.print();
    println!("entries a book: {:.1}", entries as f64 / count as f64);
    println!("lines an accepted book: {:.1}", tally.lines as f64 / tally.accepted as f64);
    let rarest = (40..=82).chain(90..=93).filter(|kind| *kind != 59).min_by_key(|kind| kinds[*kind]).unwrap();
    println!("rarest instruction or terminator in accepted books: kind {rarest}, {} times", kinds[rarest]);
    println!("accepted books with:");
    let whats = FEATURES.iter().map(|(what, _)| what).chain(WHOLE.iter().map(|(what, _)| what));
    for (found, what) in features.iter().chain(&whole).zip(whats) {
        println!("{found:>9}  {what}");
    }
    Ok(())
}

/// Prints how many books a second are made, walked over and answered by the Rust.
fn rate(seed: u64, count: u64, large: bool) {
    let start = Instant::now();
    for index in 0..count {
        let book = random::book(seed, index, large);
        if refusal::first(&book).refusal != Some(7) && !oracle::calls_others(&book) {
            oracle::answer(&book, 0);
        }
    }
    let rate = count as f64 / start.elapsed().as_secs_f64();
    println!("{rate:.0} books a second{}", if large { ", large ones among them" } else { "" });
}

/// Statements whose parts are right or wrong.
pub fn faulty(seed: u64, count: u64) -> Result<(), String> {
    let mut tally = Tally::default();
    for index in 0..count {
        let expected = expected(&faulty::lent(seed, index)).map_err(|error| format!("seed {seed}, faulty book {index}: {error}"))?;
        tally.add(&expected);
    }
    tally.print();
    Ok(())
}

/// Damaged copies of random books, and of books of several functions.
pub fn damaged(seed: u64, count: u64) -> Result<(), String> {
    let (mut tally, mut pieces) = (Tally::default(), Tally::default());
    for index in 0..count {
        let lent = runs::book(seed, index, false);
        for number in 0..COPIES {
            let copy = runs::copy(&lent, seed, index, number);
            let place = |error| format!("seed {seed}, book {index}, copy {number}: {error}");
            tally.add(&expected(&copy).map_err(place)?);
            written_again(&copy).map_err(place)?;
        }
        let piece = runs::piece(seed, index, MOST_FUNCTIONS);
        for number in 0..PIECE_COPIES {
            let copy = runs::piece_copy(&piece, seed, index, number);
            let place = |error| format!("seed {seed}, piece {index}, copy {number}: {error}");
            pieces.add(&expected(&copy).map_err(place)?);
            written_again(&copy).map_err(place)?;
        }
    }
    tally.print();
    println!("copies of books of several functions:");
    pieces.print();
    Ok(())
}

/// A sound copy is exactly what the book it stands for is written as.
fn written_again(lent: &Lent) -> Result<(), String> {
    match check(lent) {
        Verdict::Sound(book) if encode(&book) != lent.slices => Err("read and written again it differs".to_string()),
        _ => Ok(()),
    }
}
