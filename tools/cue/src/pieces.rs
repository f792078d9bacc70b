//! The functions of a text as books: all in one, or in as few as hold them, and their lines.
use crate::lines::{label_twice, without_slots};
use crate::read::{Body, Definition, LeftOut, Spot};
use mivolanjy::ir::Module;
use mivolanjy::{blame, Book, BookWriter, Lines, Place, Unwritable};
use std::collections::HashSet;

/// A function with its place among the definitions of its text.
#[derive(Clone, Copy)]
pub struct Candidate<'u> {
    /// Its place.
    pub index: usize,
    /// Where it stands.
    pub definition: &'u Definition<'u>,
    /// What it does.
    pub body: &'u Body<'u>,
}

/// A book, the lines of its functions and their text.
pub struct Piece {
    pub book: Book,
    pub lines: Lines,
    pub text: String,
}

/// What became of a text's functions.
#[derive(Default)]
pub struct Pieces<'u> {
    /// In their order. Each book's label counter begins where the one before ended.
    pub pieces: Vec<Piece>,
    /// Whose lines they are.
    pub printed: Vec<Candidate<'u>>,
    /// The places of the others, and why.
    pub left_out: Vec<(usize, LeftOut)>,
}

impl Pieces<'_> {
    /// The label counter behind all lines.
    pub fn next(&self) -> u64 {
        self.pieces.last().map_or(0, |piece| piece.lines.next)
    }
}

/// Writes and translates functions, leaving out those that can't be. The lines of a piece are those of its functions one by
/// one, so where the translator refuses a piece it is asked for each function by itself, and then for the others together.
pub fn translate<'u>(module: &'u Module<'u>, functions: &[Candidate<'u>]) -> Result<Pieces<'u>, String> {
    let mut left_out = Vec::new();
    let (books, mut printed) = write(module, functions, &mut left_out);
    let mut translated = pieces_of(books);
    if let Err(refusal) = translated {
        let before = printed.len();
        printed.retain(|function| stands_alone(module, *function, &mut left_out));
        if printed.len() == before {
            return Err(format!("the functions are refused together, and none by itself: {refusal}"));
        }
        translated = pieces_of(write(module, &printed, &mut left_out).0);
    }
    let mut pieces = translated?;
    let slotless = without_slots(lines(&pieces));
    if !slotless.is_empty() {
        printed = without(&slotless, printed, &mut left_out);
        pieces = pieces_of(write(module, &printed, &mut left_out).0)?;
    }
    match label_twice(lines(&pieces)) {
        Some(label) => Err(format!("the label {label} occurs twice")),
        None => Ok(Pieces { pieces, printed, left_out }),
    }
}

fn lines(pieces: &[Piece]) -> impl Iterator<Item = &str> {
    pieces.iter().flat_map(|piece| piece.text.lines())
}

/// The functions but for those at some places, which are left out.
fn without<'u>(
    places: &HashSet<usize>,
    printed: Vec<Candidate<'u>>,
    left_out: &mut Vec<(usize, LeftOut)>,
) -> Vec<Candidate<'u>> {
    let (out, kept): (Vec<_>, Vec<_>) = printed.into_iter().enumerate().partition(|(place, _)| places.contains(place));
    left_out.extend(out.into_iter().map(|(_, function)| {
        let reason = "its places have no bytes, and its lines would read a slot that is not there".to_string();
        (function.index, LeftOut { spot: function.definition.spot, reason })
    }));
    kept.into_iter().map(|(_, function)| function).collect()
}

/// Books with their lines, each beginning with the label counter that the last one left, and their text.
fn pieces_of(books: Vec<Book>) -> Result<Vec<Piece>, String> {
    let lines = lines_of(&books)?;
    let piece = |(book, lines): (Book, Lines)| {
        let text = book.print(&lines).map_err(|refusal| refusal.to_string())?;
        Ok(Piece { book, lines, text })
    };
    books.into_iter().zip(lines).map(piece).collect()
}

/// The books of functions, and the functions in them.
pub fn write<'u>(
    module: &'u Module<'u>,
    functions: &[Candidate<'u>],
    left_out: &mut Vec<(usize, LeftOut)>,
) -> (Vec<Book>, Vec<Candidate<'u>>) {
    let (mut books, mut written) = (Vec::new(), Vec::new());
    let mut writer = BookWriter::new(module);
    for function in functions {
        let mut answer = writer.function(&function.body.function);
        if answer.as_ref().is_err_and(|unwritable| unwritable.full) {
            let mut next = BookWriter::new(module);
            answer = next.function(&function.body.function);
            if answer.is_ok() {
                books.extend(std::mem::replace(&mut writer, next).finish().ok());
            }
        }
        match answer {
            Ok(()) => written.push(*function),
            Err(unwritable) => left_out.push((function.index, turned_down(function, unwritable))),
        }
    }
    books.extend(writer.finish().ok());
    (books, written)
}

/// The lines of books, each beginning with the label counter that the last one left.
fn lines_of(books: &[Book]) -> Result<Vec<Lines>, String> {
    let mut counter = 0;
    let translated = books.iter().map(|book| {
        let lines = book.translate(counter).map_err(|refusal| refusal.to_string())?;
        counter = lines.next;
        Ok(lines)
    });
    translated.collect()
}

/// A function's own book.
pub fn own_book<'u>(module: &'u Module<'u>, function: Candidate<'u>) -> Result<Book, Unwritable> {
    let mut writer = BookWriter::new(module);
    writer.function(&function.body.function)?;
    writer.finish()
}

/// Whether the translator takes a function by itself.
fn stands_alone<'u>(module: &'u Module<'u>, function: Candidate<'u>, left_out: &mut Vec<(usize, LeftOut)>) -> bool {
    let why = match blame(module, &function.body.function) {
        Ok(None) => return true,
        Ok(Some(blame)) => {
            let reason = blame.to_string();
            LeftOut { spot: spot(&function, blame.place), reason }
        }
        Err(unwritable) => turned_down(&function, unwritable),
    };
    left_out.push((function.index, why));
    false
}

/// What the writer says of a function, at the place of the instruction that it says it of.
fn turned_down(function: &Candidate, unwritable: Unwritable) -> LeftOut {
    LeftOut { spot: spot(function, unwritable.place), reason: unwritable.reason }
}

/// Where an instruction stands, or the function's name where it is none's.
fn spot(function: &Candidate, place: Option<Place>) -> Spot {
    let found = place.and_then(|place| function.body.spots.get(place.block)?.get(place.inst));
    found.copied().unwrap_or(function.definition.spot)
}
