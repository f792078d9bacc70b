//! A random module as a front end has it.
use super::fault::fault;
use super::foreign::{self, hint};
use crate::book::*;
use crate::expect::MOST_STEPS;
use crate::oracle;
use crate::random::{self, MOST_FUNCTIONS};
use crate::refusal;
use crate::rng::Rng;
use crate::visit;
use uvclang::ast::Module;

/// No function begins above 2^32.
const COUNTERS: [u64; 3] = [0, 7, (1 << 32) - (1 << 20)];

/// Where the named structs of a module have more parts than this, the Rust is not asked for a function that no book has.
const MOST_PARTS: u32 = 20_000;

pub struct Piece {
    /// Its structs and functions; those that are marked as defined have a body elsewhere.
    pub book: Book,
    /// The same with a fence for each call of an intrinsic that does nothing.
    pub read: Book,
    /// What the Rust and the writer are told of it.
    pub module: Module,
    /// Why each function stands in no book; none where it can.
    pub faults: Vec<Option<&'static str>>,
    pub counter: u64,
    /// Whether the Rust comes to an end with its structs: none holds itself.
    ends: bool,
}

/// Who can be asked for the lines of a function.
pub enum Who {
    /// The proved code and the Rust.
    Both,
    /// The proved code alone: the first refusal is a 7, which the Rust has not.
    TooLarge,
    /// Neither: the Rust would take too long, or for ever.
    Nobody,
}

impl Piece {
    pub fn new(seed: u64, index: u64) -> Piece {
        let (book, mut read) = (made(seed, index), made(seed, index));
        for function in &mut read.functions {
            visit::each_inst(function, &mut |inst| {
                if hint(inst).is_some() {
                    inst.kind = InstKind::Fence;
                }
            });
        }
        let faults = read.functions.iter_mut().map(|function| fault(&book.structs, function)).collect();
        let mut left = MOST_PARTS;
        let ends = book.structs.iter().all(|(name, _)| parts(&book, &Type::NamedStruct(name.clone()), &mut left));
        Piece { module: oracle::module(&book), counter: COUNTERS[index as usize % COUNTERS.len()], book, read, faults, ends }
    }

    pub fn asked(&self, place: usize) -> Who {
        if self.faults[place].is_some() {
            return if self.ends { Who::Both } else { Who::Nobody };
        }
        match refusal::of_function(&self.read, place) {
            first if first.refusal == Some(7) => Who::TooLarge,
            first if first.steps > MOST_STEPS => Who::Nobody,
            _ => Who::Both,
        }
    }

    /// How many functions that can stand in a book have a call which does nothing.
    pub fn hinted(&self) -> usize {
        let functions = self.book.functions.iter().zip(&self.faults).filter(|(_, fault)| fault.is_none());
        functions.filter(|(function, _)| instructions(function).any(|inst| hint(inst).is_some())).count()
    }

    /// What the Rust is asked for: where it does not know a call that does nothing, the function with a fence instead.
    pub fn for_rust(&self, place: usize) -> &Function {
        let strange = instructions(&self.book.functions[place]).any(|inst| hint(inst) == Some(false));
        if strange && self.faults[place].is_none() { &self.read.functions[place] } else { &self.book.functions[place] }
    }

    /// How large it is.
    pub fn size(&self) -> usize {
        self.book.functions.len() + self.book.instructions().count()
    }

    /// The book of those functions that can stand in one. The others are defined elsewhere.
    pub fn into_read(self) -> Book {
        let Piece { mut read, faults, .. } = self;
        let functions = std::mem::take(&mut read.functions).into_iter().zip(faults);
        let (taken, others): (Vec<_>, Vec<_>) = functions.partition(|(_, fault)| fault.is_none());
        read.functions = taken.into_iter().map(|(function, _)| function).collect();
        read.marks.extend(others.into_iter().map(|(function, _)| (Mark::Defined, function.name)));
        read
    }
}

/// Functions without a body are no more than declared.
fn made(seed: u64, index: u64) -> Book {
    let mut book = random::piece(seed, index, MOST_FUNCTIONS);
    book.functions.retain(|function| !function.is_decl());
    foreign::put(&mut Rng::new(seed ^ 0x6f64_6473, index), &mut book);
    book
}

/// Whether the type has no more parts than are left, those of named structs counted wherever they stand.
fn parts(book: &Book, ty: &Type, left: &mut u32) -> bool {
    if *left == 0 {
        return false;
    }
    *left -= 1;
    let fields = match ty {
        Type::Array { elem, .. } => return parts(book, elem, left),
        Type::Struct(body) => &body.fields,
        Type::NamedStruct(name) => match book.structs.iter().find(|(other, _)| other == name) {
            Some((_, Some(body))) => &body.fields,
            _ => return true,
        },
        _ => return true,
    };
    fields.iter().all(|field| parts(book, field, left))
}
