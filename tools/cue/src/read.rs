//! Reads LLVM's text as clang 14 to 19 print it, as far as integers and pointers go.
//!
//! A text that is no IR is a [`Fault`]. A function that uses what no book holds is left out, with the place and the reason,
//! and the rest of the text is read all the same.
use mivolanjy::ir::{Function, Module, Name};
use std::collections::HashSet;
use std::fmt;

mod access;
mod aggregates;
mod attributes;
mod blocks;
mod calls;
mod cursor;
mod entities;
mod headers;
mod layout;
mod lexer;
mod locals;
mod number;
mod operations;
mod spelling;
mod statements;
mod terminators;
mod types;
mod values;
mod words;

pub use words::is_memcmp;

/// A line and a column, both from 1. Columns count bytes.
#[derive(Clone, Copy, Debug, Default, PartialEq, Eq)]
pub struct Spot {
    pub line: usize,
    pub column: usize,
}

/// Why a text is no IR, and where.
#[derive(Clone, Debug, PartialEq, Eq)]
pub struct Fault {
    pub line: usize,
    pub column: usize,
    pub message: String,
}

impl Fault {
    fn new(spot: Spot, message: impl Into<String>) -> Self {
        Fault { line: spot.line, column: spot.column, message: message.into() }
    }
}

impl fmt::Display for Fault {
    fn fmt(&self, f: &mut fmt::Formatter<'_>) -> fmt::Result {
        write!(f, "{}:{}: error: {}", self.line, self.column, self.message)
    }
}

impl std::error::Error for Fault {}

/// Why a function is left out, and the first place that is a reason.
#[derive(Clone, Debug, PartialEq, Eq)]
pub struct LeftOut {
    pub spot: Spot,
    pub reason: String,
}

/// What a text holds.
#[derive(Debug, Default)]
pub struct Unit<'a> {
    /// Its named types, and the names of all functions that have a body, those left out among them.
    pub module: Module<'a>,
    /// The functions that have a body, in the text's order.
    pub definitions: Vec<Definition<'a>>,
    /// The names of all globals: functions, variables and aliases, here or elsewhere.
    pub globals: HashSet<Name<'a>>,
    /// The globals of which each thread has one of its own.
    threads: HashSet<Name<'a>>,
}

/// A function that has a body.
#[derive(Debug)]
pub struct Definition<'a> {
    /// As the text spells it, with `@`.
    pub shown: String,
    /// None: no name that a book can have.
    pub name: Option<Name<'a>>,
    /// Where its name stands.
    pub spot: Spot,
    /// What it does, or why it is left out.
    pub body: Result<Body<'a>, LeftOut>,
}

/// A function as it was read.
#[derive(Debug)]
pub struct Body<'a> {
    /// Without the calls that have no lines.
    pub function: Function<'a>,
    /// For each block where its instructions stand, and last where its terminator does.
    pub spots: Vec<Vec<Spot>>,
    /// The globals that it uses, and where.
    pub globals: Vec<(Name<'a>, Spot)>,
}

/// Reads a whole text.
pub fn read(text: &[u8]) -> Result<Unit<'_>, Fault> {
    let mut reader = cursor::Reader::new(text)?;
    let mut unit = Unit::default();
    reader.entities(&mut unit)?;
    leave_out_threads(&mut unit);
    Ok(unit)
}

/// A global of each thread's own has many addresses, and a book gives it one. They may stand behind the functions.
fn leave_out_threads(unit: &mut Unit) {
    for definition in &mut unit.definitions {
        let Ok(body) = &definition.body else { continue };
        let used = body.globals.iter().find(|(name, _)| unit.threads.contains(name));
        let why = used.map(|(name, spot)| LeftOut { spot: *spot, reason: format!("each thread has a @{name} of its own") });
        if let Some(why) = why {
            definition.body = Err(why);
        }
    }
}

/// What keeps a function from being read.
enum Trouble {
    /// The text is no IR.
    Fault(Fault),
    /// The function uses what no book holds.
    Out(LeftOut),
}

impl From<Fault> for Trouble {
    fn from(fault: Fault) -> Self {
        Trouble::Fault(fault)
    }
}

/// A function left out for a reason at a place.
fn out<T>(spot: Spot, reason: impl Into<String>) -> Result<T, Trouble> {
    Err(Trouble::Out(LeftOut { spot, reason: reason.into() }))
}
