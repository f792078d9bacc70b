//! Why something does not stand in a book, in a sentence.
use crate::ir::{BinOp, ConvOp, Function, Inst, Op, Terminator};
use std::fmt;

/// What a book can't hold: the function, the instruction and the reason.
#[derive(Clone, Debug, PartialEq, Eq)]
pub struct Unwritable {
    /// None where it is a name, a mark or a struct by itself.
    pub function: Option<String>,
    /// None where it is not one instruction's.
    pub place: Option<Place>,
    pub reason: String,
    /// Whether the book has no room left for it. In a book of its own it may stand.
    pub full: bool,
}

/// An instruction of a function.
#[derive(Clone, Debug, PartialEq, Eq)]
pub struct Place {
    /// From 0.
    pub block: usize,
    /// From 0; the terminator's is the number of instructions.
    pub inst: usize,
    /// Its block, its result and its word: `block %entry, %x = add`.
    pub text: String,
}

impl Unwritable {
    pub(crate) fn of_book(reason: String) -> Unwritable {
        Unwritable { function: None, place: None, reason, full: false }
    }

    /// The same, said of a function.
    pub(crate) fn within(self, function: &Function) -> Unwritable {
        Unwritable { function: Some(function.name.to_string()), ..self }
    }
}

impl fmt::Display for Unwritable {
    fn fmt(&self, out: &mut fmt::Formatter) -> fmt::Result {
        if let Some(function) = &self.function {
            write!(out, "function @{function}")?;
            if let Some(place) = &self.place {
                write!(out, ", {}", place.text)?;
            }
            write!(out, ": ")?;
        }
        write!(out, "{}", self.reason)
    }
}

impl std::error::Error for Unwritable {}

impl Place {
    /// The instruction, or the terminator behind the last one.
    pub(crate) fn of(function: &Function, block: usize, inst: usize) -> Place {
        let here = &function.blocks[block];
        let word = match here.insts.get(inst) {
            Some(inst) => inst_text(inst),
            None => term_word(&here.term).to_string(),
        };
        Place { block, inst, text: format!("block %{}, {word}", here.label) }
    }
}

fn inst_text(inst: &Inst) -> String {
    match &inst.dest {
        Some(dest) => format!("%{dest} = {}", op_word(&inst.op)),
        None => op_word(&inst.op).to_string(),
    }
}

/// LLVM's word for an instruction.
pub fn op_word<'o>(op: &'o Op) -> &'o str {
    match op {
        Op::Bin { op, .. } => bin_word(*op),
        Op::Conv { op, .. } => conv_word(*op),
        Op::ICmp { .. } => "icmp",
        Op::Select { .. } => "select",
        Op::Load { .. } => "load",
        Op::Store { .. } => "store",
        Op::Alloca { .. } => "alloca",
        Op::GetElementPtr { .. } => "getelementptr",
        Op::Phi { .. } => "phi",
        Op::Call { .. } => "call",
        Op::Freeze { .. } => "freeze",
        Op::AtomicLoad { .. } => "load atomic",
        Op::AtomicStore { .. } => "store atomic",
        Op::Cmpxchg { .. } => "cmpxchg",
        Op::ExtractValue { .. } => "extractvalue",
        Op::Fence => "fence",
        Op::Other(word) => word,
    }
}

/// LLVM's word for a terminator.
pub fn term_word<'t>(term: &'t Terminator) -> &'t str {
    match term {
        Terminator::Ret { .. } => "ret",
        Terminator::Br { .. } => "br",
        Terminator::Switch { .. } => "switch",
        Terminator::Unreachable => "unreachable",
        Terminator::Other(word) => word,
    }
}

fn bin_word(op: BinOp) -> &'static str {
    const WORDS: [&str; 13] =
        ["add", "sub", "mul", "udiv", "sdiv", "urem", "srem", "and", "or", "xor", "shl", "lshr", "ashr"];
    WORDS[op as usize]
}

fn conv_word(op: ConvOp) -> &'static str {
    const WORDS: [&str; 6] = ["trunc", "zext", "sext", "ptrtoint", "inttoptr", "bitcast"];
    WORDS[op as usize]
}
