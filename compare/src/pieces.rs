//! A book of several functions against its functions one by one: "Lines and counter equal those of translating them one by
//! one." First the published Rust alone, our own reading beside it; then, where the proved translator is built in, a call for the
//! whole book against a call for each function.
//!
//! One by one, a function stands in a book of its own with the same names, marks and structs; the others, where they have no
//! mark, are marked as defined.
use crate::book::{Book, Lent, Slices};
use crate::check::{check, Verdict};
use crate::expect::{expected_of, Expected};
use crate::lines::{self, Lines, Printer};
use crate::oracle::{self, Accepted, Answer};
use crate::random::MOST_FUNCTIONS;
use crate::refusal;
use crate::rng::Rng;
use crate::runs;

/// What was met.
#[derive(Default)]
struct Counts {
    books: u64,
    functions: u64,
    lines: u64,
    /// Functions that begin at a counter above 2^32.
    above: u64,
    refused: [u64; 22],
    /// Refused books with a function behind the refused one that is refused by another number.
    others: u64,
    open: u64,
}

impl Counts {
    fn print(&self) {
        let Counts { books, functions, lines, above, .. } = self;
        println!("{books} books, {functions} functions, {lines} lines of accepted ones, {above} functions begun above 2^32");
        let refused = self.refused.iter().enumerate().filter(|(_, count)| **count > 0);
        let refused: Vec<String> = refused.map(|(number, count)| format!("{number}: {count}")).collect();
        println!("refused, by number: {}; with another refusal behind: {}; open: {}", refused.join(", "), self.others, self.open);
    }
}

pub fn compare(seed: u64, count: u64) -> Result<(), String> {
    let mut counts = Counts::default();
    for index in 0..count {
        let lent = lent(seed, index);
        let place = |error| format!("seed {seed}, piece {index}: {error}");
        compare_rust(&lent, &mut counts).map_err(place)?;
    }
    counts.print();
    println!("the published Rust: no difference");
    #[cfg(proved)]
    {
        for index in 0..count {
            let lent = lent(seed, index);
            proved::compare(&lent).map_err(|error| format!("seed {seed}, piece {index}, the proved translator: {error}"))?;
        }
        println!("the proved translator: no difference");
    }
    Ok(())
}

/// The piece of an index, half of them with a counter at which later functions may begin above 2^32.
fn lent(seed: u64, index: u64) -> Lent {
    let mut lent = runs::piece(seed, index, MOST_FUNCTIONS);
    let mut rng = Rng::new(seed ^ 0x6f6e_6573, index);
    if rng.chance(500) {
        lent.counter = (1 << 32) - rng.below(12) as u64;
    }
    lent
}

/// The books of the functions one by one.
fn ones(slices: &Slices) -> Vec<Slices> {
    (0..slices.functions().len()).map(|place| slices.alone(place)).collect()
}

/// The book of one function; none where refusal 3 comes first.
fn one_book(slices: &Slices) -> Result<Option<Book>, String> {
    match check(&Lent { slices: slices.clone(), counter: 0, work: usize::MAX }) {
        Verdict::Sound(book) => Ok(Some(book)),
        Verdict::Refused(3) => Ok(None),
        Verdict::Refused(number) => Err(format!("a function alone is refused with {number}")),
    }
}

fn compare_rust(lent: &Lent, counts: &mut Counts) -> Result<(), String> {
    let (whole, book) = expected_of(lent)?;
    let books = ones(&lent.slices).iter().map(one_book).collect::<Result<Vec<_>, _>>()?;
    counts.books += 1;
    counts.functions += books.len() as u64;
    let Some(book) = book else {
        counts.refused[3] += 1;
        let any = books.iter().any(Option::is_none);
        return if matches!(whole, Expected::Refused(3)) && any { Ok(()) } else { Err("no function alone is refused with 3".to_string()) };
    };
    let Some(books) = books.into_iter().collect::<Option<Vec<Book>>>() else { return Err("a function alone is refused with 3".to_string()) };
    let firsts: Vec<Option<u8>> = books.iter().map(|book| refusal::first(book).refusal).collect();
    let place = firsts.iter().position(Option::is_some);
    match (&whole, place) {
        (Expected::Open(_), _) => counts.open += 1,
        (Expected::Refused(number), Some(place)) if firsts[place] == Some(*number) => {
            counts.refused[*number as usize] += 1;
            counts.others += firsts[place..].iter().flatten().any(|other| other != number) as u64;
            one_by_one(&books[..place], lent.counter, counts)?;
            if *number != 7 && !matches!(oracle::answer(&books[place], 0), Answer::Refused(found) if found == *number) {
                return Err(format!("the whole is refused with {number}, function {place} alone is not"));
            }
        }
        (Expected::Accepted(accepted), None) => {
            let joined = one_by_one(&books, lent.counter, counts)?;
            counts.lines += joined.lines.len() as u64;
            if joined.lines != accepted.lines || joined.next != accepted.next {
                return Err("the lines or the next counter are others than those of the functions one by one".to_string());
            }
            read_one_by_one(lent, &book, accepted, &books)?;
        }
        (whole, _) => {
            let whole = if let Expected::Refused(number) = whole { *number } else { 0 };
            return Err(format!("refused with {whole} as a whole, one by one {firsts:?}"));
        }
    }
    Ok(())
}

/// The lines of each function alone, joined, each beginning with the counter that the last one left.
fn one_by_one(books: &[Book], counter: u64, counts: &mut Counts) -> Result<Accepted, String> {
    let mut joined = Accepted { lines: vec![], next: counter };
    for (place, book) in books.iter().enumerate() {
        counts.above += (joined.next > 1 << 32) as u64;
        match oracle::answer(book, joined.next) {
            Answer::Accepted(mut accepted) => {
                joined.lines.append(&mut accepted.lines);
                joined.next = accepted.next;
            }
            _ => return Err(format!("function {place} alone is refused")),
        }
    }
    Ok(joined)
}

/// Kinds and operands of the whole are those of the functions, and the text of the whole is theirs.
fn read_one_by_one(lent: &Lent, book: &Book, accepted: &Accepted, books: &[Book]) -> Result<(), String> {
    let printer = Printer::of_book(book);
    let whole = lines::read(lent, &printer, accepted)?;
    let starts = whole.functions();
    if starts.len() != books.len() {
        return Err(format!("{} functions, {} comments", books.len(), starts.len()));
    }
    let mut text = String::new();
    for (place, one) in books.iter().enumerate() {
        let end = starts.get(place + 1).copied().unwrap_or(whole.kinds.len());
        let part = Lines { kinds: whole.kinds[starts[place]..end].to_vec(), operands: whole.operands[starts[place]..end].to_vec() };
        text += &Printer::of_book(one).text(&part.kinds, &part.operands).ok_or("a function's lines are none of its own book")?;
    }
    let same = printer.text(&whole.kinds, &whole.operands).as_deref() == Some(text.as_str()) && text == accepted.text();
    if same { Ok(()) } else { Err("the text is another than that of the functions one by one".to_string()) }
}

/// The proved translator and printer.
#[cfg(proved)]
mod proved {
    use super::ones;
    use crate::book::{Lent, Slices};
    use crate::check::HIGHEST_COUNTER;
    use crate::expect::{expected, Expected};
    use crate::lines::Lines;
    use crate::proved::{print, translate, Reply};

    /// What a call gives: its reply and lines.
    struct Given {
        reply: Reply,
        lines: Lines,
    }

    fn call(slices: &Slices, counter: u64, work: usize, room: usize) -> Given {
        let (mut work, mut kinds, mut operands) = (vec![7; work], vec![0; room], vec![0; room]);
        let reply = translate(slices, counter, &mut work, &mut kinds, &mut operands);
        let count = reply.lines.min(room as u64) as usize;
        kinds.truncate(count);
        operands.truncate(count);
        Given { reply, lines: Lines { kinds, operands } }
    }

    /// A call for one function at a counter above 2^32 would be a 1. So it is asked for at a lower one, and the numbers of its labels are moved up.
    fn call_at(slices: &Slices, counter: u64, work: usize, room: usize) -> Given {
        let over = counter.saturating_sub(HIGHEST_COUNTER);
        let mut given = call(slices, counter - over, work, room);
        let numbered = given.lines.kinds.iter().zip(&mut given.lines.operands).filter(|(kind, _)| (13..=20).contains(*kind));
        numbered.for_each(|(_, operand)| *operand += over);
        given.reply.next += over;
        given
    }

    fn text(slices: &Slices, lines: &Lines, room: usize) -> Result<Vec<u8>, String> {
        let mut text = vec![0; room];
        match print(&slices.book, &slices.names, &lines.kinds, &lines.operands, &mut text) {
            (0, count) => Ok(text[..count as usize].to_vec()),
            refused => Err(format!("the printer answers {refused:?}")),
        }
    }

    pub fn compare(lent: &Lent) -> Result<(), String> {
        let (refusal, lines, bytes) = match expected(lent)? {
            Expected::Accepted(accepted) => (Some(0), accepted.lines.len(), accepted.text().len()),
            Expected::Refused(number) => (Some(number as u64), 0, 0),
            Expected::Open(_) => (None, 0, 0),
        };
        let whole = call(&lent.slices, lent.counter, lent.work, lines);
        let ones = ones(&lent.slices);
        // Without room for lines an accepted one is a 20, and no other is.
        let alone: Vec<u64> = ones.iter().map(|one| call(one, 0, lent.work, 0).reply.refusal % 20).collect();
        let first = alone.iter().copied().find(|refusal| *refusal != 0).unwrap_or(0);
        let owed = if alone.contains(&3) { 3 } else { first };
        if whole.reply.refusal != owed || refusal.is_some_and(|refusal| refusal != owed) {
            return Err(format!("refused with {} as a whole, one by one {alone:?}, owed is {refusal:?}", whole.reply.refusal));
        }
        if owed != 0 {
            return Ok(());
        }
        let (mut joined, mut printed, mut counter) = (Lines::default(), vec![], lent.counter);
        for one in &ones {
            let given = call_at(one, counter, lent.work, lines);
            printed.extend(text(one, &given.lines, bytes)?);
            joined.kinds.extend(given.lines.kinds);
            joined.operands.extend(given.lines.operands);
            counter = given.reply.next;
        }
        if joined != whole.lines || counter != whole.reply.next {
            return Err("the lines or the next counter are others than those of the functions one by one".to_string());
        }
        let same = text(&lent.slices, &whole.lines, bytes)? == printed;
        if same { Ok(()) } else { Err("the text is another than that of the functions one by one".to_string()) }
    }
}

/// For the tests of this program: so many pieces by the Rust alone.
pub fn test(seed: u64, count: u64) -> Result<(), String> {
    let mut counts = Counts::default();
    (0..count).try_for_each(|index| compare_rust(&lent(seed, index), &mut counts).map_err(|error| format!("piece {index}: {error}")))?;
    let missing = (5..=19).filter(|number| *number != 8 && counts.refused[*number] == 0).count();
    if counts.above == 0 || counts.others == 0 || missing > 0 { Err("pieces meet too little".to_string()) } else { Ok(()) }
}
