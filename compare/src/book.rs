//! The book: functions with their marks and named structs, over the published ast.rs. The crate `mivolanjy` of bindings/rust
//! writes it as entries.
use crate::hash::{Map, Set};
use mivolanjy::{ir, Entries, Unwritable};
use std::ops::Range;
use uvclang::from_ast;

pub use mivolanjy::{kind, Mark};
pub use uvclang::ast::{
    BasicBlock, BinOp, ConvOp, FuncType, Function, ICmpPred, Inst, InstKind, Linkage, Param, StructBody, Terminator, Type,
    TypedVal, Value,
};

pub const BIN_OPS: [BinOp; 13] = [
    BinOp::Add, BinOp::Sub, BinOp::Mul, BinOp::UDiv, BinOp::SDiv, BinOp::URem, BinOp::SRem,
    BinOp::And, BinOp::Or, BinOp::Xor, BinOp::Shl, BinOp::LShr, BinOp::AShr,
];

pub const CONV_OPS: [ConvOp; 6] =
    [ConvOp::Trunc, ConvOp::ZExt, ConvOp::SExt, ConvOp::PtrToInt, ConvOp::IntToPtr, ConvOp::BitCast];

pub const PREDS: [ICmpPred; 10] = [
    ICmpPred::Eq, ICmpPred::Ne, ICmpPred::Ugt, ICmpPred::Uge, ICmpPred::Ult,
    ICmpPred::Ule, ICmpPred::Sgt, ICmpPred::Sge, ICmpPred::Slt, ICmpPred::Sle,
];

pub const WIDTHS: [u32; 5] = [1, 8, 16, 32, 64];

#[derive(Debug)]
pub struct Book {
    /// Ascending; a name's number is its position.
    pub names: Vec<String>,
    pub marks: Vec<(Mark, String)>,
    /// No body: opaque.
    pub structs: Vec<(String, Option<StructBody>)>,
    /// One or more, each name once.
    pub functions: Vec<Function>,
}

impl Book {
    pub fn is_reserved(&self, name: &str) -> bool {
        self.marks.iter().any(|(mark, marked)| *mark == Mark::Reserved && marked == name)
    }

    /// Those of all functions.
    pub fn instructions(&self) -> impl Iterator<Item = &Inst> {
        self.functions.iter().flat_map(instructions)
    }

    /// Each name's number.
    pub fn numbers(&self) -> Map<&str, u64> {
        self.names.iter().enumerate().map(|(number, name)| (name.as_str(), number as u64)).collect()
    }
}

/// A function's instructions, block by block.
pub fn instructions(function: &Function) -> impl Iterator<Item = &Inst> {
    function.blocks.iter().flat_map(|block| &block.insts)
}

/// A value of kind 37. ast.rs has several; one stands for all.
pub fn other_value() -> Value {
    Value::CStr(vec![])
}

pub fn func_type() -> Type {
    Type::Func(Box::new(FuncType { ret: Type::Void, params: vec![], varargs: false }))
}

/// A book as it is lent: the u64 slice and the bytes of the names.
#[derive(Clone, PartialEq, Eq, Debug)]
pub struct Slices {
    pub book: Vec<u64>,
    pub names: Vec<u8>,
}

impl Slices {
    pub fn new(entries: &[(u64, u64)], names: &[&str]) -> Slices {
        let mut book = vec![entries.len() as u64, names.len() as u64];
        book.extend(entries.iter().map(|entry| entry.0));
        book.extend(entries.iter().map(|entry| entry.1));
        let names = names.iter().flat_map(|name| [name.as_bytes(), b"\n"].concat()).collect();
        Slices { book, names }
    }

    /// The kinds of a sound book's entries.
    pub fn kinds(&self) -> &[u64] {
        &self.book[2..2 + self.book[0] as usize]
    }

    /// The entries of a sound book, kind beside word.
    pub fn entries(&self) -> Vec<(u64, u64)> {
        let words = &self.book[2 + self.book[0] as usize..];
        self.kinds().iter().copied().zip(words.iter().copied()).collect()
    }

    /// Where the entries of each function stand in a sound book: kind 5 begins a function and stands nowhere else.
    pub fn functions(&self) -> Vec<Range<usize>> {
        function_places(self.kinds())
    }

    /// A sound book with one of its functions alone. The others count as defined still: those without a mark get one.
    pub fn alone(&self, place: usize) -> Slices {
        let (entries, functions) = (self.entries(), self.functions());
        let head = &entries[..functions[0].start];
        let marks = head.iter().take_while(|entry| entry.0 < kind::NAMED_STRUCT).count();
        let (marks, structs) = head.split_at(marks);
        let marked: Set<u64> = marks.iter().map(|entry| entry.1).collect();
        let others = functions.iter().enumerate().filter(|(other, _)| *other != place).map(|(_, range)| entries[range.start].1);
        let defined: Vec<(u64, u64)> = others.filter(|name| !marked.contains(name)).map(|name| (kind::DEFINED, name)).collect();
        let own = &entries[functions[place].clone()];
        self.with_entries(&[marks, &defined, structs, own, &[(kind::END, 0)]].concat())
    }

    /// The same names with other entries.
    pub fn with_entries(&self, entries: &[(u64, u64)]) -> Slices {
        let mut book = vec![entries.len() as u64, self.book.get(1).copied().unwrap_or(0)];
        book.extend(entries.iter().map(|entry| entry.0));
        book.extend(entries.iter().map(|entry| entry.1));
        Slices { book, names: self.names.clone() }
    }

    /// The bytes of a book file: the u64s little-endian, then the names.
    pub fn to_file(&self) -> Vec<u8> {
        mivolanjy::Book::from_slices(self.book.clone(), self.names.clone()).to_file()
    }

    /// None where the file ends inside the book.
    pub fn from_file(bytes: &[u8]) -> Option<Slices> {
        mivolanjy::Book::from_file(bytes).map(Slices::from)
    }
}

impl From<mivolanjy::Book> for Slices {
    fn from(book: mivolanjy::Book) -> Slices {
        let (book, names) = book.into_slices();
        Slices { book, names }
    }
}

/// Each function from its kind 5 to the next one, the last to before the entry that closes the list.
pub fn function_places(kinds: &[u64]) -> Vec<Range<usize>> {
    let mut starts: Vec<usize> = (0..kinds.len()).filter(|place| kinds[*place] == kind::FUNCTION).collect();
    starts.push(kinds.len().saturating_sub(1));
    starts.windows(2).map(|two| two[0]..two[1]).collect()
}

/// Everything that the translator's reply depends on, but for the length of the line slices.
#[derive(Clone)]
pub struct Lent {
    pub slices: Slices,
    pub counter: u64,
    /// Length of the work slice.
    pub work: usize,
}

/// Writes a book. Every name it uses must stand in `names`.
pub fn encode(book: &Book) -> Slices {
    let bodies: Vec<_> = book.structs.iter().map(|(_, body)| body.as_ref().map(from_ast::struct_body)).collect();
    let functions: Vec<_> = book.functions.iter().map(from_ast::function).collect();
    let written = write(book, &bodies, &functions).unwrap_or_else(|unwritable| panic!("no book of ours: {unwritable}"));
    let slices = Slices::from(written);
    assert_eq!(slices.book[1], book.names.len() as u64, "the book's names lack one");
    slices
}

/// In the book's order, with its own marks.
fn write<'b>(
    book: &'b Book,
    bodies: &'b [Option<ir::StructBody<'b>>],
    functions: &'b [ir::Function<'b>],
) -> Result<mivolanjy::Book, Unwritable> {
    let mut entries = Entries::new();
    book.names.iter().try_for_each(|name| entries.name(name))?;
    book.marks.iter().try_for_each(|(mark, name)| entries.mark(*mark, name))?;
    book.structs.iter().zip(bodies).try_for_each(|((name, _), body)| entries.named_struct(name, body.as_ref()))?;
    functions.iter().try_for_each(|function| entries.function(function))?;
    entries.finish()
}
