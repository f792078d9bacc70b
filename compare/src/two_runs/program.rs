//! A book with its lines, and one of its functions, ready to be run both ways: on the lines of the whole book from its comment on, and on its own.
use super::machine::Code;
use super::make::Made;
use super::world::Shape;
use crate::book::*;
use crate::check::work_needed;
use crate::expect::{expected, Expected};
use crate::oracle;
use std::collections::{BTreeMap, BTreeSet};
use uvclang::ast::Module;
use uvclang::layout::Layout;

pub struct Program {
    pub book: Book,
    pub lent: Lent,
    pub shapes: BTreeMap<String, Shape>,
    /// Those of all functions, in order.
    pub lines: Vec<String>,
    pub code: Code,
    /// The function's own lines alone.
    pub own_code: Code,
    module: Module,
    /// Which of the functions is run.
    pub place: usize,
    /// The line of its comment.
    pub begins: usize,
    /// The first slot of each result.
    slots: BTreeMap<String, usize>,
}

impl Program {
    /// At the first function. None where the book is refused.
    pub fn new(made: Made, counter: u64) -> Result<Option<Program>, String> {
        let Made { book, shapes } = made;
        let lent = Lent { slices: encode(&book), counter, work: work_needed(book.names.len()) };
        let Expected::Accepted(accepted) = expected(&lent)? else { return Ok(None) };
        let symbols: BTreeSet<String> = book.names.iter().map(|name| printed(name)).collect();
        if symbols.len() < book.names.len() {
            return Err("two names print alike".to_string());
        }
        let module = oracle::module(&book);
        let (code, own_code, slots) = (Code::default(), Code::default(), BTreeMap::new());
        let mut program = Program { book, lent, shapes, lines: accepted.lines, code, own_code, module, place: 0, begins: 0, slots };
        program.enter(0)?;
        if let Some(label) = program.code.label_twice() {
            return Err(format!("two lines have the label {label}"));
        }
        Ok(Some(program))
    }

    /// Goes to the function of this place.
    pub fn enter(&mut self, place: usize) -> Result<(), String> {
        self.place = place;
        self.slots = slots(self.function());
        self.read_lines()
    }

    /// Makes the code of the lines. A function's lines begin with its comment; no other line begins with `#`.
    pub fn read_lines(&mut self) -> Result<(), String> {
        let mut comments: Vec<usize> = (0..self.lines.len()).filter(|line| self.lines[*line].starts_with('#')).collect();
        comments.push(self.lines.len());
        self.begins = comments[self.place];
        self.code = self.code_of(&self.lines)?;
        self.own_code = self.code_of(&self.lines[self.begins..comments[self.place + 1]])?;
        Ok(())
    }

    fn code_of(&self, lines: &[String]) -> Result<Code, String> {
        let of_function = |function: &Function| {
            let labels = function.blocks.iter().map(|block| printed_label(function, &block.label));
            labels.collect::<Vec<String>>()
        };
        let blocks = self.book.functions.iter().flat_map(of_function).collect();
        let symbols = self.book.names.iter().map(|name| (printed(name), name.clone())).collect();
        Code::new(lines, blocks, symbols)
    }

    pub fn function(&self) -> &Function {
        &self.book.functions[self.place]
    }

    pub fn layout(&self) -> Layout<'_> {
        Layout::new(&self.module)
    }

    /// The label of a block of the function as its line prints it.
    pub fn printed_label(&self, block: &str) -> String {
        printed_label(self.function(), block)
    }

    /// The place of a parameter; the latest of its name counts.
    pub fn argument(&self, name: &str) -> Option<usize> {
        self.function().params.iter().rposition(|param| param.name.as_deref() == Some(name))
    }

    pub fn slot(&self, name: &str) -> Option<usize> {
        self.slots.get(name).copied()
    }

    /// Parameters, then results, in order.
    pub fn names(&self) -> impl Iterator<Item = &str> {
        let params = self.function().params.iter().filter_map(|param| param.name.as_deref());
        params.chain(instructions(self.function()).filter_map(|inst| inst.dest.as_deref()))
    }

    pub fn number(&self, name: &str) -> usize {
        self.book.names.iter().position(|other| other == name).unwrap_or(usize::MAX)
    }
}

fn printed_label(function: &Function, block: &str) -> String {
    format!("{}__{}", printed(&function.name), printed(block))
}

/// One `_` for each character that is no letter, digit or `_`.
fn printed(name: &str) -> String {
    name.chars().map(|c| if c.is_ascii_alphanumeric() { c } else { '_' }).collect()
}

/// Slots run in instruction order; a cmpxchg takes two, and so does a call of a global containing `.with.overflow.`.
fn slots(function: &Function) -> BTreeMap<String, usize> {
    let mut slots = BTreeMap::new();
    let mut next = 0;
    for inst in instructions(function) {
        let Some(name) = &inst.dest else { continue };
        slots.insert(name.clone(), next);
        next += match &inst.kind {
            InstKind::Cmpxchg { .. } => 2,
            InstKind::Call { callee: Value::Global(callee), .. } if callee.contains(".with.overflow.") => 2,
            _ => 1,
        };
    }
    slots
}
