//! Lines of books put together otherwise: functions' lines in another order, twice or not at all; comments lost, repeated or of
//! other names; block labels and jumps before any comment; lines that are none. Two readings of which lines the printer takes
//! (21), two printers of ours, and the proved one.
use crate::book::{Book, Lent};
use crate::expect::{expected_of, Expected};
use crate::lines::{self, Lines, Printer};
#[cfg(proved)]
use crate::proved;
use crate::random::MOST_FUNCTIONS;
use crate::rng::Rng;
use crate::runs;

/// Changed copies of each book's lines.
const COPIES: usize = 6;

const COMMENT: u16 = 0;
const BLOCK_LABEL: u16 = 2;
const BLOCK_JUMP: u16 = 3;

/// What was met.
#[derive(Default)]
struct Counts {
    printed: u64,
    refused: u64,
    /// Refused since a block's label or jump stands before any comment.
    before: u64,
    /// Refused since a comment names no function.
    strangers: u64,
    bytes: u64,
}

pub fn compare(seed: u64, count: u64) -> Result<(), String> {
    let counts = all(seed, count, &mut proved_prints)?;
    println!("{} lists of lines printed, {} bytes; {} refused with 21", counts.printed, counts.bytes, counts.refused);
    println!("of these {} for a block before any comment, {} for a comment that names no function", counts.before, counts.strangers);
    println!("no difference");
    Ok(())
}

/// For the tests of this program: our readings and printers alone.
pub fn test(seed: u64, count: u64) -> Result<(), String> {
    let counts = all(seed, count, &mut |_, _, _, _| Ok(()))?;
    let few = [counts.printed, counts.refused, counts.before, counts.strangers].iter().any(|number| *number < 50);
    if few { Err("segments meet too little".to_string()) } else { Ok(()) }
}

/// Takes what is owed to a list of lines: its text, or none for a 21.
type Judge<'a> = &'a mut dyn FnMut(&Lent, &Lines, Option<&str>, &mut Rng) -> Result<(), String>;

fn all(seed: u64, count: u64, judge: Judge) -> Result<Counts, String> {
    let mut counts = Counts::default();
    for index in 0..count {
        let lent = runs::piece(seed, index, MOST_FUNCTIONS);
        let mut rng = Rng::new(seed ^ 0x7365_676d, index);
        let place = |error| format!("seed {seed}, piece {index}: {error}");
        let (Expected::Accepted(accepted), Some(book)) = expected_of(&lent).map_err(place)? else { continue };
        let printer = Printer::of_book(&book);
        let whole = lines::read(&lent, &printer, &accepted).map_err(place)?;
        for copy in 0..COPIES {
            let lines = if copy == 0 { whole.clone() } else { changed(&whole, &book, &mut rng) };
            let show = |error| place(format!("{error}; kinds {:?}, operands {:?}", lines.kinds, lines.operands));
            let text = ours(&book, &printer, &lines, &mut counts).map_err(show)?;
            judge(&lent, &lines, text.as_deref(), &mut rng).map_err(show)?;
        }
    }
    Ok(counts)
}

/// The text by two printers, which must agree with each other and with the second reading of 21; none for a 21.
fn ours(book: &Book, printer: &Printer, lines: &Lines, counts: &mut Counts) -> Result<Option<String>, String> {
    let text = printer.text(&lines.kinds, &lines.operands);
    let fault = fault(book, lines);
    match (&text, &fault) {
        (Some(text), None) => {
            let strings = printer.strings(&lines.kinds, &lines.operands).ok_or("the second printer prints nothing")?;
            if strings.iter().map(|line| line.clone() + "\n").collect::<String>() != *text {
                return Err("our two printers differ".to_string());
            }
            counts.printed += 1;
            counts.bytes += text.len() as u64;
        }
        (None, Some(fault)) => {
            counts.refused += 1;
            counts.before += (*fault == Fault::NoFunction) as u64;
            counts.strangers += (*fault == Fault::Stranger) as u64;
        }
        _ => return Err(format!("printed: {}, by the second reading: {fault:?}", text.is_some())),
    }
    Ok(text)
}

// ---- the second reading

#[derive(Clone, Copy, PartialEq, Eq, Debug)]
enum Fault {
    /// A comment that names no function of the book.
    Stranger,
    /// A block's label or jump before any comment.
    NoFunction,
    /// Another operand that its kind does not allow, or a kind that no line has.
    Other,
}

/// Document 01: "Allowed are names of the book (for a syscall with `__uvm_`, for a comment a function here), slots to 65,535,
/// `push_0n` 1 to 65,535, `call_fp` to 255, any number for `push`, `get_arg` and numbered labels, else 0." Document 02: "A block
/// label or jump takes the function of the last comment line before it, else 21." The first fault.
fn fault(book: &Book, lines: &Lines) -> Option<Fault> {
    let mut commented = false;
    let name = |number: u64| usize::try_from(number).ok().and_then(|number| book.names.get(number));
    lines.kinds.iter().zip(&lines.operands).find_map(|(kind, operand)| {
        let operand = *operand;
        let allowed = match *kind {
            COMMENT => {
                let here = name(operand).is_some_and(|name| book.functions.iter().any(|function| function.name == *name));
                commented |= here;
                return (!here).then_some(Fault::Stranger);
            }
            BLOCK_LABEL | BLOCK_JUMP if !commented => return Some(Fault::NoFunction),
            1..=4 => name(operand).is_some(),
            5 => name(operand >> 8).is_some(),
            6 => name(operand).is_some_and(|name| name.starts_with("__uvm_")),
            7 => operand != 0 && operand < 65_536,
            10 | 11 => operand < 65_536,
            12 => operand < 256,
            8 | 9 | 13..=20 => true,
            21..=93 => operand == 0,
            _ => false,
        };
        (!allowed).then_some(Fault::Other)
    })
}

// ---- changes

/// A copy with one to three changes.
fn changed(whole: &Lines, book: &Book, rng: &mut Rng) -> Lines {
    let mut lines = pairs(whole);
    for _ in 0..*rng.pick(&[1, 1, 2, 3]) {
        change(&mut lines, book, rng);
    }
    let (kinds, operands) = lines.into_iter().unzip();
    Lines { kinds, operands }
}

fn pairs(lines: &Lines) -> Vec<(u16, u64)> {
    lines.kinds.iter().copied().zip(lines.operands.iter().copied()).collect()
}

fn change(lines: &mut Vec<(u16, u64)>, book: &Book, rng: &mut Rng) {
    if lines.is_empty() {
        return;
    }
    let at = rng.below(lines.len());
    match rng.below(12) {
        0..=1 => shuffle(lines, rng),
        2 => {
            // A function's lines twice, or not at all.
            let mut parts = segments(lines);
            let part = rng.below(parts.len());
            if rng.chance(500) { parts.push(parts[part].clone()) } else { drop(parts.remove(part)) }
            *lines = parts.concat();
        }
        3 => {
            // From some line on, often from behind the first comment.
            lines.drain(..if rng.chance(500) { 1 } else { at });
        }
        4 => lines.retain(|line| line.0 != COMMENT),
        5..=6 => {
            // A comment of another name.
            if let Some(comment) = comment_of(lines, rng) {
                lines[comment].1 = named(book, rng);
            }
        }
        7 => lines.insert(at, (COMMENT, function(book, rng))),
        8 => {
            // A comment twice, or further on.
            if let Some(comment) = comment_of(lines, rng) {
                let line = lines[comment];
                if rng.chance(500) {
                    lines.remove(comment);
                }
                let at = at.min(lines.len());
                lines.insert(at, line);
            }
        }
        9 => {
            // A block's label or jump in front of all.
            let kind = *rng.pick(&[BLOCK_LABEL, BLOCK_JUMP]);
            let operand = named(book, rng);
            lines.insert(if rng.chance(700) { 0 } else { at }, (kind, operand));
        }
        10 => lines.swap(0, at),
        _ => {
            let line = any_line(book, rng);
            lines.insert(at, line);
        }
    }
}

/// The lines from each comment to the next; those before the first are a part too.
fn segments(lines: &[(u16, u64)]) -> Vec<Vec<(u16, u64)>> {
    let mut parts: Vec<Vec<(u16, u64)>> = vec![];
    for line in lines {
        match parts.last_mut() {
            Some(part) if line.0 != COMMENT => part.push(*line),
            _ => parts.push(vec![*line]),
        }
    }
    parts
}

fn shuffle(lines: &mut Vec<(u16, u64)>, rng: &mut Rng) {
    let mut parts = segments(lines);
    rng.shuffle(&mut parts);
    *lines = parts.concat();
}

fn comment_of(lines: &[(u16, u64)], rng: &mut Rng) -> Option<usize> {
    let comments: Vec<usize> = (0..lines.len()).filter(|place| lines[*place].0 == COMMENT).collect();
    if comments.is_empty() { None } else { Some(*rng.pick(&comments)) }
}

fn function(book: &Book, rng: &mut Rng) -> u64 {
    let name = &rng.pick(&book.functions).name;
    book.names.iter().position(|other| other == name).expect("a name of the book") as u64
}

/// A function, any name, or a number just beyond or far beyond the names.
fn named(book: &Book, rng: &mut Rng) -> u64 {
    match rng.below(6) {
        0..=1 => function(book, rng),
        2..=4 => rng.below(book.names.len()) as u64,
        _ => *rng.pick(&[book.names.len() as u64, book.names.len() as u64 + 1, 1 << 32, u64::MAX]),
    }
}

fn any_line(book: &Book, rng: &mut Rng) -> (u16, u64) {
    let kind = match rng.below(30) {
        0 => *rng.pick(&[94, 95, 255, 256, 65_535]),
        _ => rng.below(94) as u16,
    };
    let operand = match kind {
        0..=4 | 6 => named(book, rng),
        5 => named(book, rng).wrapping_mul(256).wrapping_add(rng.below(256) as u64),
        _ => *rng.pick(&[0, 0, 0, 1, 255, 256, 65_535, 65_536, u64::MAX]),
    };
    (kind, operand)
}

// ---- the proved printer

/// The proved printer owes this text, or 21 for none: into a text slice that is long enough, exactly full, a byte short and empty.
#[cfg(proved)]
fn proved_prints(lent: &Lent, lines: &Lines, owed: Option<&str>, rng: &mut Rng) -> Result<(), String> {
    let length = owed.map_or(rng.below(300), str::len);
    // The shorter of the two line slices counts: rubbish behind the other is nobody's.
    let (mut kinds, mut operands) = (lines.kinds.clone(), lines.operands.clone());
    match rng.below(3) {
        0 => kinds.push(65_535),
        1 => operands.push(u64::MAX),
        _ => {}
    }
    for room in [length + rng.below(4), length, length.saturating_sub(1), 0] {
        let mut text = vec![b'!'; room];
        let found = proved::print(&lent.slices.book, &lent.slices.names, &kinds, &operands, &mut text);
        let (answer, written) = match owed {
            None => ((21, 0), ""),
            Some(owed) if owed.len() <= room => ((0, owed.len() as u64), owed),
            Some(_) => ((20, 0), ""),
        };
        let (start, rest) = text.split_at(written.len());
        if found != answer || start != written.as_bytes() || rest.iter().any(|byte| *byte != b'!') {
            return Err(format!("the proved printer answers {found:?} into {room} bytes, owed is {answer:?}, or its text is another"));
        }
    }
    Ok(())
}

#[cfg(not(proved))]
fn proved_prints(_: &Lent, _: &Lines, _: Option<&str>, _: &mut Rng) -> Result<(), String> {
    Ok(())
}
