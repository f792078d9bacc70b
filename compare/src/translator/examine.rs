//! One book, lent in several ways: line slices around the right length, work slices longer and shorter than needed, odd
//! counters.
use super::lend::{Desk, Difference, Found, Lengths, Owed};
use crate::book::{Book, Lent};
use crate::check::{work_needed, HIGHEST_COUNTER};
use crate::expect::{expected_of, Expected};
use crate::lines::{self, Lines, Printer};
use crate::oracle::{self, Accepted};
use crate::proved::{self, Reply};
use crate::refusal;
use crate::rng::Rng;

#[derive(Default)]
pub struct Examiner {
    desk: Desk,
    text: Vec<u8>,
    none: Lines,
}

/// What was owed, and the first difference, with the lengths it showed at.
pub struct Examined {
    pub owed: Answer,
    /// Calls of the translator.
    pub calls: u64,
    pub difference: Option<Found>,
}

#[derive(Clone, Copy)]
pub enum Answer {
    Accepted { lines: u64 },
    Refused(u8),
    Open,
    /// The oracle itself failed.
    Unknown,
}

/// The calls for one book.
struct Calls<'a> {
    examiner: &'a mut Examiner,
    lent: &'a Lent,
    rng: Rng,
    count: u64,
}

impl Calls<'_> {
    /// A call at these lengths and this counter must be refused so.
    fn refused(&mut self, refusal: u64, counter: u64, lengths: Lengths) -> Result<(), Found> {
        self.count += 1;
        let Examiner { desk, none, .. } = &mut *self.examiner;
        let found = desk.call(&self.lent.slices, counter, lengths, &mut self.rng);
        let owed = Owed { reply: Reply { refusal, lines: 0, next: counter }, lines: none };
        desk.judge(found, &owed).map_err(|found| at(found, counter, lengths))
    }

    /// A call at these lengths must give these lines.
    fn accepted(&mut self, lines: &Lines, next: u64, lengths: Lengths) -> Result<(), Found> {
        self.count += 1;
        let desk = &mut self.examiner.desk;
        let found = desk.call(&self.lent.slices, self.lent.counter, lengths, &mut self.rng);
        let owed = Owed { reply: Reply { refusal: 0, lines: lines.kinds.len() as u64, next }, lines };
        desk.judge(found, &owed).map_err(|found| at(found, self.lent.counter, lengths))
    }

    /// Some lengths of line slices, often short ones: they may end inside the first of several functions, whose lines are then counted all the same.
    fn lengths(&mut self, work: usize) -> Lengths {
        let mut length = || match self.rng.below(20) {
            0..=5 => 0,
            6..=8 => 3000 + self.rng.below(64),
            _ => self.rng.below(64),
        };
        Lengths { work, kinds: length(), operands: length() }
    }

    /// A work slice that is too short, and a counter that is too high.
    fn spoiled(&mut self, refused: Option<u8>) -> Result<(), Found> {
        if self.rng.chance(250) && !matches!(refused, Some(1..=4)) {
            let needed = work_needed(self.lent.slices.book[1] as usize);
            let work = if self.rng.chance(500) { needed - 1 } else { self.rng.below(needed) };
            let lengths = self.lengths(work);
            self.refused(4, self.lent.counter, lengths)?;
        }
        if self.rng.chance(250) {
            let counter = [HIGHEST_COUNTER + 1, u64::MAX, HIGHEST_COUNTER + 1 + (self.rng.next() >> 1)][self.rng.below(3)];
            let lengths = self.lengths(self.lent.work.min(4096));
            self.refused(1, counter, lengths)?;
        }
        Ok(())
    }

    /// A work slice as lent, or longer where that is long enough.
    fn work(&mut self) -> usize {
        self.lent.work + if self.rng.chance(300) { self.rng.below(100) } else { 0 }
    }

    fn all(&mut self, answer: &Expected, book: Option<&Book>) -> Result<(), Found> {
        match (answer, book) {
            (Expected::Accepted(accepted), Some(book)) => self.all_accepted(accepted, book),
            (Expected::Accepted(_), None) => unreachable!("an accepted book is sound"),
            (Expected::Refused(number), book) => {
                let work = if *number == 4 { self.lent.work } else { self.work() };
                let lengths = self.lengths(work);
                self.refused(*number as u64, self.lent.counter, lengths)?;
                if let Some(count) = book.and_then(lines_before) {
                    // Slices that the functions before the refused one fill, or just don't.
                    let [kinds, operands] = [(); 2].map(|()| count - self.rng.below(2).min(count));
                    self.refused(*number as u64, self.lent.counter, Lengths { work, kinds, operands })?;
                }
                self.spoiled(Some(*number))
            }
            (Expected::Open(_), _) => self.open(),
        }
    }

    fn all_accepted(&mut self, accepted: &Accepted, book: &Book) -> Result<(), Found> {
        let printer = Printer::of_book(book);
        let lines = lines::read(self.lent, &printer, accepted).map_err(|what| (Difference::Rust, what))?;
        let count = lines.kinds.len();
        let work = self.work();
        let (one, two) = (self.rng.below(5), self.rng.below(40));
        let (kinds, operands) = if self.rng.chance(500) { (count + one, count + two) } else { (count + two, count + one) };
        self.accepted(&lines, accepted.next, Lengths { work, kinds, operands })?;
        self.accepted(&lines, accepted.next, Lengths { work: self.lent.work, kinds: count, operands: count })?;
        self.texts(&printer, &accepted.text(), count)?;
        let any = self.rng.below(count);
        let less = count - 1;
        let short = [(less, count), (count, less), (less, less), (0, 0), (0, count), (any, count + 1), (count + 1, any)];
        let (kinds, operands) = *self.rng.pick(&short);
        self.refused(20, self.lent.counter, Lengths { work, kinds, operands })?;
        if let [_, second, ..] = lines.functions()[..] {
            // Slices that the first function fills, or ends in.
            let early = self.rng.below(second);
            let inside = *self.rng.pick(&[second, second - 1, second + 1, early]);
            let operands = if self.rng.chance(500) { inside } else { count };
            self.refused(20, self.lent.counter, Lengths { work, kinds: inside.min(less), operands })?;
        }
        self.spoiled(None)
    }

    /// The lines of the last call, printed twice.
    fn texts(&mut self, printer: &Printer, owed: &str, count: usize) -> Result<(), Found> {
        let Examiner { desk, text, .. } = &mut *self.examiner;
        let (kinds, operands) = desk.lines(count);
        let printed = printer.text(kinds, operands);
        if printed.as_deref() != Some(owed) {
            return Err((Difference::Text, first_line(printed.as_deref().unwrap_or("no text"), owed)));
        }
        let spare = self.rng.below(3);
        text.clear();
        text.resize(owed.len() + spare, b'!');
        let found = proved::print(&self.lent.slices.book, &self.lent.slices.names, kinds, operands, text);
        let (start, rest) = text.split_at(owed.len());
        if found != (0, owed.len() as u64) || start != owed.as_bytes() || rest.iter().any(|byte| *byte != b'!') {
            let printed = String::from_utf8_lossy(start);
            return Err((Difference::ProvedText, format!("it answers {found:?}; {}", first_line(&printed, owed))));
        }
        let short = &mut text[..owed.len() - 1];
        short.fill(b'!');
        let found = proved::print(&self.lent.slices.book, &self.lent.slices.names, kinds, operands, short);
        if found != (20, 0) || short.iter().any(|byte| *byte != b'!') {
            return Err((Difference::ProvedText, format!("one byte short it answers {found:?}, or changes the text")));
        }
        Ok(())
    }

    /// Nobody knows the answer, but some things hold of each.
    fn open(&mut self) -> Result<(), Found> {
        self.count += 1;
        let work = self.work();
        let lengths = Lengths { work, kinds: 4000, operands: 4001 };
        let desk = &mut self.examiner.desk;
        let counter = self.lent.counter;
        let found = desk.call(&self.lent.slices, counter, lengths, &mut self.rng);
        let lines = found.lines.min(4000) as usize;
        let numbers = match found.refusal {
            0 => found.lines <= 4000 && counter <= found.next,
            refusal => refusal <= 20 && found.lines == 0 && found.next == counter,
        };
        let kept = if numbers { desk.kept(lines) } else { Err((Difference::Count, format!("{found:?}"))) };
        kept.map_err(|found| at(found, counter, lengths))
    }
}

/// How many lines the functions have that stand before a refused one; none where that is the first.
fn lines_before(book: &Book) -> Option<usize> {
    if book.functions.len() == 1 || oracle::calls_others(book) {
        return None;
    }
    match refusal::first(book).place {
        0 => None,
        place => match oracle::answer_before(book, place, 0) {
            oracle::Answer::Accepted(accepted) => Some(accepted.lines.len()),
            _ => None,
        },
    }
}

/// A difference with what was lent.
fn at((sort, what): Found, counter: u64, lengths: Lengths) -> Found {
    let Lengths { work, kinds, operands } = lengths;
    (sort, format!("{what}\ncounter {counter}, work slice {work}, kinds {kinds}, operands {operands}"))
}

fn first_line(found: &str, owed: &str) -> String {
    let (mut one, mut two) = (found.lines(), owed.lines());
    let mut place = 0;
    loop {
        match (one.next(), two.next()) {
            (None, None) => return "the same lines".to_string(),
            (one, two) if one != two => return format!("line {place}: {one:?}, owed is {two:?}"),
            _ => place += 1,
        }
    }
}

impl Examiner {
    pub fn new() -> Examiner {
        Examiner::default()
    }

    /// The seed draws how the book is lent.
    pub fn examine(&mut self, lent: &Lent, seed: u64) -> Examined {
        let (answer, book) = match expected_of(lent) {
            Ok(found) => found,
            Err(what) => return Examined { owed: Answer::Unknown, calls: 0, difference: Some((Difference::Rust, what)) },
        };
        let owed = match &answer {
            Expected::Accepted(accepted) => Answer::Accepted { lines: accepted.lines.len() as u64 },
            Expected::Refused(number) => Answer::Refused(*number),
            Expected::Open(_) => Answer::Open,
        };
        let mut calls = Calls { examiner: self, lent, rng: Rng::new(seed, 0), count: 0 };
        let difference = calls.all(&answer, book.as_ref()).err();
        Examined { owed, calls: calls.count, difference }
    }
}
