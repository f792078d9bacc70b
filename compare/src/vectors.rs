//! Random and damaged books with their answers, as text that another program can replay. README.md has the formats.
use crate::book::Lent;
use crate::cases;
use crate::check::work_needed;
use crate::expect::{expected, expected_of, Expected};
use crate::lines::{self, Lines, Printer};
use crate::rng::Rng;
use crate::runs;
use crate::written::faulty;
use std::fs::{self, File};
use std::io::{BufWriter, Write};
use std::path::Path;

/// Books of more than `most` entries are left out.
pub fn write(seed: u64, count: u64, folder: &str, most: u64) -> Result<(), String> {
    let in_folder = |error: std::io::Error| format!("{folder}: {error}");
    fs::create_dir_all(folder).map_err(in_folder)?;
    let open = |name: &str| File::create(Path::new(folder).join(name)).map(BufWriter::new).map_err(in_folder);
    let mut books = open("books.txt")?;
    let mut copies = open("damaged.txt")?;
    for index in 0..count {
        let lent = runs::book(seed, index, false);
        if lent.slices.book[0] > most {
            continue;
        }
        let copy = runs::copy(&lent, seed, index, 0);
        books.write_all(&case(&format!("{seed} {index}"), &lent)?).map_err(in_folder)?;
        copies.write_all(&case(&format!("{seed} {index} 0"), &copy)?).map_err(in_folder)?;
    }
    books.flush().and_then(|()| copies.flush()).map_err(in_folder)
}

/// One case; nothing where the answer is open.
fn case(name: &str, lent: &Lent) -> Result<Vec<u8>, String> {
    let (answer, text) = match expected(lent).map_err(|error| format!("{name}: {error}"))? {
        Expected::Accepted(accepted) => (format!("accepted {} {}", accepted.lines.len(), accepted.next), accepted.text()),
        Expected::Refused(number) => (format!("refused {number}"), String::new()),
        Expected::Open(_) => return Ok(vec![]),
    };
    let words: Vec<String> = lent.slices.book.iter().map(u64::to_string).collect();
    let names = &lent.slices.names;
    let head = format!("case {name}\ncounter {}\nwork {}\n", lent.counter, lent.work);
    let book = format!("book {}\n{}\nnames {}\n", words.len(), words.join(" "), names.len());
    let tail = format!("\n{answer}\ntext {}\n{text}\n", text.len());
    Ok([head.as_bytes(), book.as_bytes(), names, tail.as_bytes()].concat())
}

// ---- numbers alone

/// What a call is lent beside the book, and what it owes.
#[derive(Clone)]
struct Call {
    lent: Lent,
    /// Lengths of the line slices.
    room: [usize; 2],
    /// 0 for none.
    refusal: u64,
    lines: Lines,
    next: u64,
    text: String,
    /// What each work word is afterwards, and what stands behind the kinds, the operands and the text.
    rest: [u64; 4],
    /// The printer's refusal of a text slice that is a byte short.
    short: u64,
}

/// No work word is left, and the rest of each slice stays: kinds and operands are lent full of 43690, the text full of `!`.
const REST: [u64; 4] = [0, 43690, 43690, b'!' as u64];

impl Call {
    /// The same with other line slices, of which one is too short.
    fn short(&self, room: [usize; 2]) -> Call {
        let lent = self.lent.clone();
        Call { room, refusal: 20, lines: Lines::default(), next: lent.counter, text: String::new(), lent, ..self.clone() }
    }
}

/// A case as a line of numbers; one that comes three times or more in a row as TIMES*NUMBER.
fn numbers(call: &Call) -> String {
    let Call { lent, room, refusal, lines, next, text, rest, short } = call;
    let (words, names) = (&lent.slices.book, &lent.slices.names);
    let lengths = [words.len(), names.len(), text.len()].map(|length| length as u64);
    let count = lines.kinds.len() as u64;
    let mut all = vec![lent.counter, lent.work as u64, room[0] as u64, room[1] as u64, *refusal, count, *next];
    all.extend(rest);
    all.push(*short);
    all.extend(lengths);
    all.extend(words);
    all.extend(names.iter().map(|byte| *byte as u64));
    all.extend(lines.kinds.iter().map(|kind| *kind as u64));
    all.extend(&lines.operands);
    all.extend(text.bytes().map(u64::from));
    let run = |run: &[u64]| match run.len() {
        1 => run[0].to_string(),
        2 => format!("{} {}", run[0], run[0]),
        times => format!("{times}*{}", run[0]),
    };
    all.chunk_by(|one, other| one == other).map(run).collect::<Vec<_>>().join(" ") + "\n"
}

/// The call for a book with line slices that are exactly full; none where the answer is open.
fn owed(lent: Lent) -> Result<Option<Call>, String> {
    let (lines, next, refusal, text) = match expected_of(&lent)? {
        (Expected::Accepted(accepted), Some(book)) => {
            let printer = Printer::of_book(&book);
            let lines = lines::read(&lent, &printer, &accepted)?;
            if printer.text(&lines.kinds, &lines.operands) != Some(accepted.text()) {
                return Err("the lines read back print another text".to_string());
            }
            (lines, accepted.next, 0, accepted.text())
        }
        (Expected::Refused(number), _) => (Lines::default(), lent.counter, number as u64, String::new()),
        _ => return Ok(None),
    };
    let room = [lines.kinds.len(); 2];
    Ok(Some(Call { lent, room, refusal, lines, next, text, rest: REST, short: 20 }))
}

/// The same with line slices that are exactly full, longer, or too short.
fn call(lent: Lent, rng: &mut Rng) -> Result<Option<Call>, String> {
    let Some(mut call) = owed(lent)? else { return Ok(None) };
    let count = call.room[0];
    if call.refusal == 0 && rng.chance(150) {
        let first = call.lines.functions().get(1).copied().unwrap_or(0);
        let room = *rng.pick(&[[count - 1, count], [count, count - 1], [0, 0], [count / 2, count + 1], [first, first]]);
        return Ok(Some(call.short(room)));
    }
    if !rng.chance(500) {
        call.room = [count + rng.below(4), count + rng.below(4)];
    }
    Ok(Some(call))
}

/// The sheets, refusals and limits of `cases.rs`, but for books of more than 66,000 entries or 1,000 bytes of names: each with line
/// slices that are exactly full, one of them a line short, and such as end with or in the first of several functions; the first at the
/// largest counter, at one more, and with a work slice that is a word short.
fn fixed() -> Result<Vec<Call>, String> {
    let mut calls = vec![];
    for (what, slices) in cases::books() {
        if slices.book.len() > 132_002 || slices.names.len() > 1000 {
            continue;
        }
        let work = work_needed(slices.names.iter().filter(|byte| **byte == b'\n').count());
        let lent = Lent { slices, counter: 0, work };
        let mut lents = vec![lent.clone()];
        if calls.is_empty() {
            lents.extend([1 << 32, (1 << 32) + 1].map(|counter| Lent { counter, ..lent.clone() }));
            lents.push(Lent { work: work - 1, ..lent });
        }
        for lent in lents {
            let call = owed(lent).map_err(|error| format!("{what}: {error}"))?.ok_or(format!("{what}: no answer"))?;
            let count = call.room[0];
            if call.refusal == 0 {
                let ends = call.lines.functions().get(1).map_or(vec![], |second| vec![[*second; 2], [*second - 1, count]]);
                calls.extend([[count - 1, count], [count, count - 1]].into_iter().chain(ends).map(|room| call.short(room)));
            }
            calls.push(call);
        }
    }
    Ok(calls)
}

/// A call recorded wrong in one of the things that are compared: each line differs from a right one in one thing alone, and a program that compares names it.
fn wrong(right: &Call) -> Vec<Call> {
    let count = right.room[0];
    // The rest of each slice is there to be looked at.
    let right = Call { room: [count + 1, count + 2], ..right.clone() };
    let refused = right.short([count, count - 1]);
    let mut calls = vec![];
    let mut change = |right: &Call, change: &dyn Fn(&mut Call)| {
        let mut call = right.clone();
        change(&mut call);
        calls.push(call);
    };
    change(&right, &|call| call.refusal = 20);
    // A line more, which is what the slices hold there.
    change(&right, &|call| call.lines.push(REST[1] as u16, REST[2]));
    change(&right, &|call| call.next += 1);
    change(&right, &|call| *call.lines.kinds.last_mut().expect("lines") += 1);
    change(&right, &|call| *call.lines.operands.last_mut().expect("lines") += 1);
    for slice in 0..REST.len() {
        change(&right, &|call| call.rest[slice] += 1);
    }
    change(&right, &|call| call.text.replace_range(..1, "!"));
    // A byte more, which is what the slice holds there.
    change(&right, &|call| call.text.push('!'));
    change(&right, &|call| call.short = 21);
    change(&refused, &|call| call.refusal = 19);
    change(&refused, &|call| call.refusal = 0);
    for slice in 0..REST.len() - 1 {
        change(&refused, &|call| call.rest[slice] += 1);
    }
    [vec![right, refused], calls].concat()
}

/// Books that are looked at for each that is written.
const LOOKED_AT: u64 = 2000;

/// Writes the books that are always the same and COUNT small ones: of each refusal the first that come, a fortieth of all, and for the rest
/// accepted ones. Last come two right calls, and the same recorded wrong.
pub fn write_numbers(seed: u64, count: u64, file: &str, most: u64) -> Result<(), String> {
    let share = (count / 40).max(1);
    let mut written = [0u64; 21];
    let mut rows = vec![];
    let fixed = fixed()?;
    for index in 0..count * LOOKED_AT {
        let mut rng = Rng::new(seed ^ 0x5eed, index);
        let lent = match index % 5 {
            0 => runs::book(seed, index, false),
            1 => runs::copy(&runs::book(seed, index, false), seed, index, 0),
            2 => faulty::lent(seed, index),
            3 => runs::piece(seed, index, 4),
            _ => runs::piece_copy(&runs::piece(seed, index, 4), seed, index, 0),
        };
        if lent.slices.book.len() as u64 > 2 * most + 2 {
            continue;
        }
        let place = |error| format!("seed {seed}, book {index}: {error}");
        let Some(call) = call(lent, &mut rng).map_err(place)? else { continue };
        let refusal = call.refusal as usize;
        let refused: u64 = written[1..].iter().sum();
        // All but 8, which no small book has, and the rest accepted.
        let room = if refusal == 0 { written[0] + 19 * share < count } else { written[refusal] < share };
        if room && written[0] + refused < count {
            written[refusal] += 1;
            rows.push(numbers(&call));
        }
        if rows.len() as u64 == count {
            break;
        }
    }
    let first = fixed.iter().find(|call| call.refusal == 0).ok_or("no book is accepted")?;
    let wrong = wrong(first);
    let text = fixed.iter().map(numbers).chain(rows).chain(wrong.iter().map(numbers)).collect::<String>();
    std::fs::write(file, &text).map_err(|error| format!("{file}: {error}"))?;
    for call in fixed.iter().chain(&wrong) {
        written[call.refusal as usize] += 1;
    }
    let met = written.iter().enumerate().filter(|(_, count)| **count > 0);
    let counts: Vec<String> = met.map(|(number, count)| format!("{number}: {count}")).collect();
    println!("{} cases, {} bytes; by refusal, 0 for accepted: {}", written.iter().sum::<u64>(), text.len(), counts.join(", "));
    Ok(())
}
