//! All of the work on bytes in memory: a text in, lines, books and complaints out.
use crate::alike::alike;
use crate::files::function_files;
use crate::pieces::{own_book, translate, Candidate, Pieces};
use crate::read::{read, Definition, LeftOut, Unit};
use mivolanjy::Book;
use std::collections::HashMap;

/// What is asked for.
#[derive(Clone, Debug, Default)]
pub struct Options {
    /// Only the function of this name, without `@`.
    pub function: Option<String>,
    /// Whether book files are made.
    pub books: bool,
}

/// What a text gives.
#[derive(Clone, Debug, Default)]
pub struct Outcome {
    /// The lines of all functions that could be translated.
    pub text: String,
    /// A line for each function left out, or one that says why there is nothing at all.
    pub complaints: Vec<String>,
    /// Book files, by their paths below the folder for them.
    pub books: Vec<(String, Vec<u8>)>,
    /// All 0 where the code is 2.
    pub stats: Stats,
    /// 0: all printed. 1: some function left out. 2: no IR, or no such function.
    pub code: u8,
}

/// Counts for `--stats`.
#[derive(Clone, Copy, Debug, Default, PartialEq, Eq)]
pub struct Stats {
    /// Functions that have a body.
    pub read: usize,
    /// Those whose lines are in the text.
    pub printed: usize,
    /// Those asked for that have none.
    pub left_out: usize,
    /// Of all pieces together, as are the names.
    pub entries: usize,
    /// A name that two pieces have counts twice.
    pub names: usize,
    /// Of the text, as are the bytes.
    pub lines: usize,
    /// In UTF-8.
    pub bytes: usize,
    /// The label counter behind the last line.
    pub next: u64,
}

/// The lines of a text's functions. `name` is what complaints call the text.
pub fn run(name: &str, text: &[u8], options: &Options) -> Outcome {
    match attempt(name, text, options) {
        Ok(outcome) => outcome,
        Err(complaint) => Outcome { complaints: vec![one_line(&complaint)], code: 2, ..Outcome::default() },
    }
}

fn attempt(name: &str, text: &[u8], options: &Options) -> Result<Outcome, String> {
    let unit = read(text).map_err(|fault| format!("{name}:{fault}"))?;
    let chosen = chosen(&unit, options.function.as_deref()).map_err(|reason| format!("{name}: error: {reason}"))?;
    let mut left_out: Vec<(usize, LeftOut)> = Vec::new();
    let mut candidates = Vec::new();
    let alike: HashMap<usize, LeftOut> = alike(&unit).into_iter().collect();
    for (index, definition) in chosen {
        match &definition.body {
            Ok(_) if alike.contains_key(&index) => left_out.push((index, alike[&index].clone())),
            Ok(body) => candidates.push(Candidate { index, definition, body }),
            Err(why) => left_out.push((index, why.clone())),
        }
    }
    let mut pieces = translate(&unit.module, &candidates).map_err(|reason| format!("{name}: error: {reason}"))?;
    left_out.append(&mut pieces.left_out);
    left_out.sort_by_key(|(index, _)| *index);
    let text: String = pieces.pieces.iter().map(|piece| piece.text.as_str()).collect();
    let complaint = |(index, why): &(usize, LeftOut)| complaint(name, &unit.definitions[*index], why);
    let stats = stats(&unit, &pieces, &text, left_out.len());
    Ok(Outcome {
        books: if options.books { books(&unit, &pieces) } else { Vec::new() },
        complaints: left_out.iter().map(complaint).collect(),
        stats,
        text,
        code: u8::from(!left_out.is_empty()),
    })
}

/// The functions asked for, with their places.
fn chosen<'u>(unit: &'u Unit<'u>, function: Option<&str>) -> Result<Vec<(usize, &'u Definition<'u>)>, String> {
    let all = unit.definitions.iter().enumerate();
    let Some(name) = function else { return Ok(all.collect()) };
    let found: Vec<_> = all.filter(|(_, definition)| definition.name.as_deref() == Some(name)).collect();
    if found.is_empty() {
        Err(format!("no function @{name} has a body here"))
    } else {
        Ok(found)
    }
}

fn complaint(name: &str, definition: &Definition, why: &LeftOut) -> String {
    let LeftOut { spot, reason } = why;
    one_line(&format!("{name}:{}:{}: {} is left out: {reason}", spot.line, spot.column, definition.shown))
}

/// Names may hold any character, and a complaint is one line.
fn one_line(text: &str) -> String {
    text.chars().map(|letter| if letter.is_control() { ' ' } else { letter }).collect()
}

fn stats(unit: &Unit, pieces: &Pieces, text: &str, left_out: usize) -> Stats {
    let sum = |count: fn(&Book) -> usize| pieces.pieces.iter().map(|piece| count(&piece.book)).sum();
    Stats {
        read: unit.definitions.len(),
        printed: pieces.printed.len(),
        left_out,
        entries: sum(|book| book.words()[0] as usize),
        names: sum(|book| book.words()[1] as usize),
        lines: pieces.pieces.iter().map(|piece| piece.lines.kinds.len()).sum(),
        bytes: text.len(),
        next: pieces.next(),
    }
}

/// The piece as one book or several, and each function's own.
fn books(unit: &Unit, pieces: &Pieces) -> Vec<(String, Vec<u8>)> {
    let several = pieces.pieces.len() > 1;
    let whole = pieces.pieces.iter().enumerate().map(|(place, piece)| {
        let name = if several { format!("piece-{}.book", place + 1) } else { "piece.book".to_string() };
        (name, piece.book.to_file())
    });
    let names = pieces.printed.iter().map(|function| function.body.function.name.as_ref());
    let own = function_files(names).into_iter().zip(&pieces.printed);
    let own = own.filter_map(|(file, function)| Some((file, own_book(&unit.module, *function).ok()?.to_file())));
    whole.chain(own).collect()
}
