//! One module: what the writer takes of it, and whether the lines are the Rust's, function by function and as one book.
use super::piece::{Piece, Who};
use super::Counts;
use crate::expect::{self, Expected};
use crate::oracle::{self, Accepted, Fault};
use mivolanjy::{ir, Book, BookWriter, Lines, Unwritable};
use uvclang::codegen::access::Asked;
use uvclang::from_ast;

/// The first difference, in words.
pub fn judge(piece: Piece, counts: &mut Counts) -> Result<(), String> {
    counts.modules += 1;
    counts.hinted += piece.hinted() as u64;
    let units = from_ast::module(&piece.module);
    let book = write(&piece, &units, counts)?;
    one_by_one(&piece, &units, counts)?;
    drop(units);
    match book {
        Some(book) => {
            as_file(&book)?;
            whole(piece, &book, counts)
        }
        None => Ok(()),
    }
}

/// The book of all functions that the writer takes. It must take those that our own reading lets stand in a book, and one
/// that is turned down must leave no trace.
fn write(piece: &Piece, units: &ir::Module, counts: &mut Counts) -> Result<Option<Book>, String> {
    let functions: Vec<ir::Function> = piece.book.functions.iter().map(from_ast::function).collect();
    let (mut writer, mut other) = (BookWriter::new(units), BookWriter::new(units));
    for (place, function) in functions.iter().enumerate() {
        let alone = BookWriter::new(units).function(function);
        let found = writer.function(function);
        if found != alone {
            return Err(format!("function {:?}: behind others {found:?}, alone {alone:?}", function.name));
        }
        as_owed(found, piece.faults[place], &function.name)?;
        match piece.faults[place] {
            None => other.function(function).map_err(|unwritable| format!("taken, then turned down: {unwritable}"))?,
            Some(fault) => *counts.turned_down.entry(fault).or_default() += 1,
        }
        // A second one of its name is turned down, and so is a function that was turned down.
        as_owed(writer.function(function), Some("its name twice"), &function.name)?;
    }
    counts.functions += functions.len() as u64;
    let traces = writer.count() != other.count();
    match (writer.finish(), other.finish()) {
        (one, two) if one != two || traces => Err("what was turned down changes the book".to_string()),
        (one, _) => Ok(one.ok()),
    }
}

/// Whether a function is turned down for a fault alone, by a sentence that names it.
fn as_owed(found: Result<(), Unwritable>, fault: Option<&str>, name: &str) -> Result<(), String> {
    match (found, fault) {
        (Ok(()), None) => Ok(()),
        (Err(unwritable), Some(_)) => names_function(&unwritable, name),
        (Ok(()), Some(fault)) => Err(format!("function {name:?} is taken, by our reading it has {fault}")),
        (Err(unwritable), None) => Err(format!("turned down, by our reading it has nothing: {unwritable}")),
    }
}

fn names_function(unwritable: &Unwritable, name: &str) -> Result<(), String> {
    let says = unwritable.to_string();
    let named = unwritable.function.as_deref() == Some(name) && says.starts_with(&format!("function @{name}"));
    if named && !unwritable.full { Ok(()) } else { Err(format!("the sentence does not name {name:?}: {says:?}")) }
}

/// Each function on one code generator by way of a book, and on another one by the Rust itself.
fn one_by_one(piece: &Piece, units: &ir::Module, counts: &mut Counts) -> Result<(), String> {
    let [mut rust, mut proved] = [(); 2].map(|()| Asked::new(&piece.module, piece.counter as usize));
    for (place, function) in piece.book.functions.iter().enumerate() {
        let taken = piece.faults[place].is_none();
        let (lines, counter) = (proved.lines().len(), proved.counter());
        let owed = match piece.asked(place) {
            Who::Nobody => {
                counts.not_asked += 1;
                continue;
            }
            Who::TooLarge => Err(Fault { message: "a 7".to_string(), refusal: Some(7) }),
            Who::Both => oracle::run(|| rust.own(piece.for_rust(place))),
        };
        counts.fallbacks += !taken as u64;
        let found = oracle::run(|| proved.proved(units, function));
        let kept = proved.lines().len() == lines && proved.counter() == counter;
        let place = |what: String| format!("function {:?} one by one: {what}", function.name);
        match (owed, found) {
            (Ok(()), Ok(())) => counts.one_by_one += same_lines(&rust, &proved, lines).map_err(place)?,
            (Err(owed), Err(found)) => {
                same_fault(&owed, &found, taken).map_err(place)?;
                if taken && !kept {
                    return Err(place("lines or a counter in spite of an error".to_string()));
                }
                counts.errors += 1;
                [&mut rust, &mut proved].into_iter().for_each(|asked| asked.put_back(lines, counter));
            }
            (owed, found) => return Err(place(format!("{}, owed is {}", says(&found), says(&owed)))),
        }
    }
    Ok(())
}

/// How many lines there are behind the first ones, if they are the same and so are the counters.
fn same_lines(rust: &Asked, proved: &Asked, first: usize) -> Result<u64, String> {
    let (owed, found) = (&rust.lines()[first..], &proved.lines()[first..]);
    if owed != found {
        return Err(first_line(found, owed));
    }
    if rust.counter() != proved.counter() {
        return Err(format!("counter {}, owed is {}", proved.counter(), rust.counter()));
    }
    Ok(owed.len() as u64)
}

/// The same refusal; the same words where the Rust was asked on both sides.
fn same_fault(owed: &Fault, found: &Fault, taken: bool) -> Result<(), String> {
    let same = match taken {
        true => owed.refusal.is_some() && number_in(&found.message) == owed.refusal,
        false => owed.message == found.message,
    };
    if same { Ok(()) } else { Err(format!("{}, owed is {}", found.message, owed.message)) }
}

/// The refusal's number that a sentence ends with.
fn number_in(message: &str) -> Option<u8> {
    let (_, number) = message.strip_suffix(')')?.rsplit_once("(refusal ")?;
    number.parse().ok()
}

fn says(result: &Result<(), Fault>) -> &str {
    result.as_ref().map_or_else(|fault| fault.message.as_str(), |()| "lines")
}

fn first_line(found: &[String], owed: &[String]) -> String {
    let place = (0..found.len()).find(|place| found.get(*place) != owed.get(*place)).unwrap_or(found.len());
    format!("line {place} is {:?}, owed is {:?}", found.get(place), owed.get(place))
}

fn as_file(book: &Book) -> Result<(), String> {
    let file = book.to_file();
    let short = Book::from_file(&file[..8 * book.words().len() - 1]);
    let same = Book::from_file(&file).as_ref() == Some(book) && short.is_none();
    if same { Ok(()) } else { Err("the book is another one as a file".to_string()) }
}

/// All functions that are taken as one book, against the Rust and our own reading of the refusals.
fn whole(piece: Piece, book: &Book, counts: &mut Counts) -> Result<(), String> {
    let counter = piece.counter;
    let read = piece.into_read();
    if book.functions() != read.functions.len() {
        return Err(format!("{} functions in the book, owed are {}", book.functions(), read.functions.len()));
    }
    let found = book.translate(counter);
    let refusal = found.as_ref().map_or_else(|refusal| refusal.number(), |_| 0);
    match (expect::of_book(&read, counter)?, &found) {
        (Expected::Accepted(owed), Ok(lines)) => {
            same_text(book, lines, &owed).map_err(|what| format!("as one book: {what}"))?;
            counts.accepted += 1;
            counts.lines += lines.kinds.len() as u64;
        }
        (Expected::Refused(owed), _) if refusal == owed => counts.refused[owed as usize] += 1,
        (Expected::Open(_), _) if !(1..=3).contains(&refusal) => counts.open += 1,
        (owed, _) => {
            let owed = if let Expected::Refused(number) = owed { number } else { 0 };
            return Err(format!("as one book: refused with {refusal}, owed is {owed}, 0 for none"));
        }
    }
    Ok(())
}

fn same_text(book: &Book, lines: &Lines, owed: &Accepted) -> Result<(), String> {
    let text = book.print(lines).map_err(|refusal| format!("its lines are refused: {refusal}"))?;
    if text != owed.text() {
        let found: Vec<String> = text.lines().map(str::to_string).collect();
        return Err(first_line(&found, &owed.lines));
    }
    if lines.next != owed.next {
        return Err(format!("next counter {}, owed is {}", lines.next, owed.next));
    }
    Ok(())
}
