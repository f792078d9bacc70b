//! What a run met: answers by sort of book, and for each sort of difference how often it came and its smallest book.
use super::examine::Answer;
use super::lend::{Difference, Found};
use super::smaller::smaller;
use super::{Examiner, Sort, SORTS};
use crate::book::Lent;
use crate::show;
use std::collections::BTreeMap;
use std::time::Duration;

/// Accepted, refusals 1 to 20, open, no answer.
const ANSWERS: usize = 23;
const OPEN: usize = 21;
const UNKNOWN: usize = 22;

struct Smallest {
    count: u64,
    lent: Lent,
    seed: u64,
    found: Found,
    place: String,
}

#[derive(Default)]
pub struct Tally {
    answers: [[u64; SORTS.len()]; ANSWERS],
    lines: [u64; SORTS.len()],
    calls: u64,
    differences: BTreeMap<Difference, Smallest>,
}

fn size(lent: &Lent) -> usize {
    8 * lent.slices.book.len() + lent.slices.names.len()
}

impl Tally {
    /// Examines one book; the seed draws how it is lent.
    pub fn add(&mut self, sort: Sort, examiner: &mut Examiner, lent: &Lent, seed: u64, place: impl Fn() -> String) {
        let examined = examiner.examine(lent, seed);
        let row = match examined.owed {
            Answer::Accepted { lines } => {
                self.lines[sort as usize] += lines;
                0
            }
            Answer::Refused(number) => number as usize,
            Answer::Open => OPEN,
            Answer::Unknown => UNKNOWN,
        };
        self.answers[row][sort as usize] += 1;
        self.calls += examined.calls;
        if let Some(found) = examined.difference {
            let sort = found.0;
            self.differ(sort, Smallest { count: 1, lent: lent.clone(), seed, found, place: place() });
        }
    }

    fn differ(&mut self, sort: Difference, new: Smallest) {
        let Some(old) = self.differences.get_mut(&sort) else {
            self.differences.insert(sort, new);
            return;
        };
        let count = old.count + new.count;
        if size(&new.lent) < size(&old.lent) {
            *old = new;
        }
        old.count = count;
    }

    /// Both together.
    pub fn and(mut self, other: Tally) -> Tally {
        for (mine, theirs) in self.answers.iter_mut().flatten().zip(other.answers.iter().flatten()) {
            *mine += theirs;
        }
        self.lines.iter_mut().zip(other.lines).for_each(|(mine, theirs)| *mine += theirs);
        self.calls += other.calls;
        other.differences.into_iter().for_each(|(sort, smallest)| self.differ(sort, smallest));
        self
    }

    pub fn print(&self, time: Duration, threads: usize) {
        let row = |what: &str, counts: &[u64]| {
            let counts: String = counts.iter().map(|count| format!("{count:>11}")).collect();
            println!("{what:<12}{counts}");
        };
        println!("{:<12}{}", "", SORTS.map(|sort| format!("{sort:>11}")).concat());
        for (answer, counts) in self.answers.iter().enumerate().filter(|(_, counts)| counts.iter().any(|count| *count > 0)) {
            let what = match answer {
                0 => "accepted".to_string(),
                OPEN => "open".to_string(),
                UNKNOWN => "no answer".to_string(),
                number => format!("refused {number}"),
            };
            row(&what, counts);
        }
        let total: Vec<u64> = (0..SORTS.len()).map(|sort| self.answers.iter().map(|counts| counts[sort]).sum()).collect();
        row("books", &total);
        row("lines", &self.lines);
        let (books, seconds) = (total.iter().sum::<u64>(), time.as_secs_f64());
        let rate = books as f64 / seconds;
        println!("{books} books, {} calls, {seconds:.1} s on {threads} threads, {rate:.0} books a second", self.calls);
    }

    /// An error that shows each sort of difference with its smallest book, made smaller where that goes.
    pub fn result(&self) -> Result<(), String> {
        if self.differences.is_empty() {
            println!("no difference");
            return Ok(());
        }
        let mut examiner = Examiner::new();
        let mut message = String::from("differences:");
        for (sort, smallest) in &self.differences {
            let shorter = smaller(&mut examiner, &smallest.lent, smallest.seed, *sort);
            let note = if shorter.is_some() { ", with entries and names left out" } else { "" };
            let (lent, (_, what)) = shorter.unwrap_or_else(|| (smallest.lent.clone(), smallest.found.clone()));
            let (words, names) = (&lent.slices.book, show::bytes(&lent.slices.names));
            let head = format!("\n\n{} in {} books; the smallest is {}{note}: ", sort.says(), smallest.count, smallest.place);
            message.push_str(&head);
            message.push_str(&what);
            if size(&lent) < 100_000 {
                message.push_str(&format!("\nbook {words:?}\nnames {names}"));
            }
        }
        Err(message)
    }
}
