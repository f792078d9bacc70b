//! Small books written by hand, where random ones come seldom: chains of faults inside one statement, corners, books with two
//! faults before any statement, and books of several functions. The Rust's answer must be the one that stands beside a book; `compare written` writes
//! them as checked tables of crates/lowering.
use crate::book::Lent;
#[cfg(proved)]
use crate::book::Slices;
use crate::expect::{expected, Expected};
use crate::table::{self, Row};

mod chains;
mod corners;
pub mod faulty;
pub mod notation;
mod pieces;

/// A book, the counter that it is lent, and the refusal that it gets: 0 for none.
struct Written {
    title: String,
    text: String,
    counter: u64,
    refusal: u8,
}

/// The largest counter that is taken.
const LARGEST: u64 = 1 << 32;

/// The tables: file, name, what stands over it, books.
fn tables() -> [(&'static str, &'static str, &'static str, Vec<Written>); 8] {
    [
        ("ChainsValues", "chains", CHAINS, chains::values()),
        ("ChainsMemory", "chains", CHAINS, chains::memory()),
        ("ChainsCalls", "chains", CHAINS, chains::steps_and_calls()),
        ("ChainsBlocks", "chains", CHAINS, chains::blocks_and_edges()),
        ("CornersPlaces", "corners", CORNERS, corners::places_and_steps()),
        ("CornersCalls", "corners", CORNERS, corners::calls()),
        ("CornersBlocks", "corners", CORNERS, corners::values_and_blocks()),
        ("Pieces", "pieces", PIECES, pieces::pieces()),
    ]
}

const CHAINS: &str = "-- \"The first fault `Codegen::gen_function` meets in its own statement order\", statement by statement. A chain is one statement
-- with every fault that it can have; each row repairs the fault that the row before was refused for, so a row shows that its
-- refusal comes before all those that follow. The last row of a chain has no fault. With the answers of the published Rust;
-- written by `compare written`, in whose notation each book stands over its row.
";

const CORNERS: &str = "-- Corners that random books meet seldom, both sides of each: counts and indices of odd types, strides of 0 and 1, results
-- that a call may have, names that nearly are special, maps with two of one name. With the answers of the published Rust;
-- written by `compare written`, in whose notation each book stands over its row.
";

const PIECES: &str = "-- Books of several functions: what each has of its own, what they share, how the list of them is closed, and which refusal of
-- several comes first. With the answers of the published Rust, asked function by function; written by `compare written`, in whose notation
-- each book stands over its row.
";

/// Writes the tables to a folder.
pub fn write(folder: &str) -> Result<(), String> {
    for (file, name, head, books) in tables() {
        let rows = |counter: u64| books.iter().filter(|book| book.counter == counter).map(row).collect::<Result<Vec<_>, _>>();
        let path = format!("{folder}/{file}.antt");
        let (first, largest) = (rows(0)?, rows(LARGEST)?);
        let text = table::named(head, name, &first, &largest);
        std::fs::write(&path, text).map_err(|error| format!("{path}: {error}"))?;
        println!("{path}: {} books, {} refused", books.len(), books.iter().filter(|book| book.refusal > 0).count());
    }
    Ok(())
}

/// Every book with its answer, for the tests of this program.
pub fn tests() -> Vec<(String, Result<(), String>)> {
    tables().into_iter().flat_map(|table| table.3).map(|book| (book.title.clone(), row(&book).map(|_| ()))).collect()
}

/// Every book, with what it is.
#[cfg(proved)]
pub fn books() -> Vec<(String, Slices)> {
    let read = |book: Written| (book.title, notation::read(&book.text).expect("words of the notation"));
    tables().into_iter().flat_map(|table| table.3).map(read).collect()
}

/// The book of a row. The Rust's answer must be the one stated.
fn row(book: &Written) -> Result<Row, String> {
    let wrong = |what: String| format!("{}: {}: {what}", book.title, book.text);
    let slices = notation::read(&book.text).map_err(&wrong)?;
    let answer = expected(&Lent { slices: slices.clone(), counter: book.counter, work: usize::MAX }).map_err(&wrong)?;
    let number = match &answer {
        Expected::Accepted(_) => 0,
        Expected::Refused(number) => *number,
        Expected::Open(reason) => return Err(wrong(reason.to_string())),
    };
    if number != book.refusal {
        return Err(wrong(format!("the answer is {number}, here stands {}", book.refusal)));
    }
    let says = table::says(&answer).ok_or_else(|| wrong("open".to_string()))?;
    Ok(Row { title: format!("{}: {}", book.title, book.text), slices, says })
}

/// `void @f(ptr %p)`: marks and structs, if any, before a bar; then instructions of the one block `e`, which returns.
fn insts(text: &str) -> String {
    let (head, text) = text.split_once('|').unwrap_or(("", text));
    blocks(&format!("{head}|block:e {text} ret -"))
}

/// The same with its blocks.
fn blocks(text: &str) -> String {
    let (head, text) = text.split_once('|').unwrap_or(("", text));
    let text = format!("{head} func:f void param:p ptr . {text} . .");
    text.split_whitespace().collect::<Vec<_>>().join(" ")
}
