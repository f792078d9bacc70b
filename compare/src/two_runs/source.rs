//! The source run of document 01, "The two runs": what a function does by the LLVM manual, block after block.
use super::world::{Call, Input, Memory};
use crate::book::*;
use kinds::{inst_kind, term_kind};
use std::collections::{BTreeMap, BTreeSet};
use uvclang::layout::Layout;

mod insts;
mod kinds;
pub mod values;

/// The reasons of document 01, "Stops".
#[derive(Clone, Copy, PartialEq, Eq, PartialOrd, Ord, Debug)]
pub enum Stop {
    Unset,
    OtherWidth,
    IllFormed,
    Undefined,
    IntegerRange,
    IndexRange,
    LoadRange,
    Aggregate,
    ResultType,
    PlaceTwice,
    PlaceEmpty,
    SyscallShape,
    Unreachable,
    NoBlock,
}

/// Why a run does not go on.
#[derive(Clone, Copy, PartialEq, Eq, Debug)]
pub enum Halt {
    Stop(Stop),
    /// The reply at this position does not fit the width of the call's result: no stop, a broken premise.
    Unfit { position: usize, width: u32 },
}

impl From<Stop> for Halt {
    fn from(stop: Stop) -> Halt {
        Halt::Stop(stop)
    }
}

/// What a name stands for: a value of a width, or the two of a cmpxchg.
#[derive(Clone, PartialEq, Eq, Debug)]
pub enum Named {
    One { width: u32, value: u64 },
    Two { width: u32, found: u64, success: bool },
}

#[derive(Clone, PartialEq, Eq, Debug)]
pub enum Stand {
    /// At the beginning of the block with this name, its leading phis taken.
    At(String),
    Gave(u64),
}

pub struct Source<'a> {
    function: &'a Function,
    pub(super) layout: Layout<'a>,
    pub(super) input: &'a Input,
    /// Offsets of the fixed places, and whether there is a frame at all.
    pub(super) places: BTreeMap<&'a str, u64>,
    pub(super) framed: bool,
    pub stand: Stand,
    pub env: BTreeMap<&'a str, Named>,
    pub memory: Memory,
    pub calls: Vec<Call>,
    pub sp: u64,
    /// How often each entry kind was run.
    pub executed: Vec<u64>,
    /// How often what counts.rs looks for was met.
    pub met: BTreeMap<&'static str, u64>,
    /// Addresses read or written.
    pub touched: BTreeSet<u64>,
}

pub const KINDS: usize = kind::UNREACHABLE as usize + 1;

impl<'a> Source<'a> {
    /// At the function's first block, with no block passed. Its book is one that the translator accepts.
    pub fn begin(function: &'a Function, layout: Layout<'a>, input: &'a Input) -> Result<Source<'a>, Halt> {
        let mut source = Source {
            function,
            layout,
            input,
            places: BTreeMap::new(),
            framed: false,
            stand: Stand::At(function.blocks.first().ok_or(Stop::NoBlock)?.label.clone()),
            env: BTreeMap::new(),
            memory: input.memory.clone(),
            calls: vec![],
            sp: input.sp,
            executed: vec![0; KINDS],
            met: BTreeMap::new(),
            touched: BTreeSet::new(),
        };
        source.enter_frame();
        for (param, cell) in function.params.iter().zip(&input.args) {
            if let (Some(name), Ok(width)) = (&param.name, width_of(&param.ty)) {
                source.env.insert(name, Named::One { width, value: *cell });
            }
        }
        Ok(source)
    }

    /// Fixed places lie one behind the other, each at its type's alignment; the stack pointer moves behind them all, to a
    /// multiple of 8 from where it was.
    fn enter_frame(&mut self) {
        let mut end = 0u64;
        let mut varying = false;
        for inst in instructions(self.function) {
            let (InstKind::Alloca { ty, count, .. }, Some(name)) = (&inst.kind, &inst.dest) else { continue };
            let Some(count) = fixed_count(count) else {
                varying = true;
                continue;
            };
            end = end.next_multiple_of(self.layout.align_of(ty));
            self.places.insert(name, end);
            end += self.layout.size_of(ty) * count;
        }
        let size = end.next_multiple_of(8);
        self.framed = size > 0 || varying;
        if self.sp.checked_add(size).is_none() {
            self.meet("stack pointer that wraps");
        }
        self.sp = self.sp.wrapping_add(size);
    }

    pub(super) fn meet(&mut self, what: &'static str) {
        *self.met.entry(what).or_default() += 1;
    }

    fn block_named(&self, label: &str) -> Result<&'a BasicBlock, Stop> {
        self.function.blocks.iter().find(|block| block.label == label).ok_or(Stop::NoBlock)
    }

    /// Runs the block that it stands at, to the next one or to the return.
    pub fn pass(&mut self) -> Result<(), Halt> {
        let Stand::At(label) = &self.stand else { return Ok(()) };
        let block = self.block_named(label)?;
        for inst in &block.insts[crate::random::leading_phis(&block.insts)..] {
            self.inst(inst)?;
            self.executed[inst_kind(&inst.kind) as usize] += 1;
        }
        self.stand = self.term(block)?;
        self.executed[term_kind(&block.term) as usize] += 1;
        Ok(())
    }

    fn term(&mut self, block: &'a BasicBlock) -> Result<Stand, Halt> {
        match &block.term {
            Terminator::Ret { val } => Ok(Stand::Gave(self.returned(val.as_ref())?)),
            Terminator::Br { cond: None, if_true, .. } => self.edge(&block.label, if_true),
            Terminator::Br { cond: Some(cond), if_true, if_false } => {
                let if_false = if_false.as_ref().ok_or(Stop::IllFormed)?;
                let taken = if self.operand(1, cond)? == 1 { if_true } else { if_false };
                self.edge(&block.label, taken)
            }
            Terminator::Switch { ty, val, default, cases } => {
                let width = integer_width(ty)?;
                let value = self.operand(width, val)?;
                for (number, target) in cases {
                    if values::constant(width, *number)? == value {
                        self.meet(if *number < 0 { "switch to a negative case" } else { "switch to a case" });
                        return self.edge(&block.label, target);
                    }
                }
                self.edge(&block.label, default)
            }
            Terminator::Unreachable => Err(Stop::Unreachable.into()),
        }
    }

    fn returned(&mut self, val: Option<&TypedVal>) -> Result<u64, Halt> {
        let result = result_width(&self.function.ret_ty)?;
        match (val, result) {
            (None, None) => Ok(0),
            (Some(val), Some(width)) if width_of(&val.ty)? == width => Ok(self.operand(width, &val.val)?),
            _ => Err(Stop::IllFormed.into()),
        }
    }

    /// Every incoming value is read before any phi is set.
    fn edge(&mut self, from: &str, to: &str) -> Result<Stand, Halt> {
        let block = self.block_named(to)?;
        let mut taken = vec![];
        for inst in &block.insts {
            let InstKind::Phi { ty, incoming } = &inst.kind else { break };
            let (value, _) = incoming.iter().find(|(_, label)| label == from).ok_or(Stop::IllFormed)?;
            let width = width_of(ty)?;
            taken.push((&inst.dest, Named::One { width, value: self.operand(width, value)? }));
        }
        self.executed[kind::PHI as usize] += taken.len() as u64;
        if phis_swap(block, from) {
            self.meet("phis that swap");
        }
        for (dest, named) in taken {
            self.put(dest, named);
        }
        Ok(Stand::At(to.to_string()))
    }

    pub(super) fn put(&mut self, dest: &'a Option<String>, named: Named) {
        if let Some(name) = dest {
            self.env.insert(name, named);
        }
    }

    /// What an operand is at a width: undef, poison and zeroinitializer are 0, a global is its address.
    pub(super) fn operand(&self, width: u32, value: &Value) -> Result<u64, Stop> {
        match value {
            Value::Local(name) => match self.env.get(name.as_str()) {
                None => Err(Stop::Unset),
                Some(Named::Two { .. }) => Err(Stop::Aggregate),
                Some(Named::One { width: has, .. }) if *has != width => Err(Stop::OtherWidth),
                Some(Named::One { value, .. }) => Ok(*value),
            },
            Value::Int(number) => values::constant(width, *number),
            Value::Global(name) if width == 64 => Ok(self.input.globals.get(name).copied().unwrap_or(0)),
            Value::Null | Value::Undef | Value::Poison | Value::ZeroInit => Ok(0),
            _ => Err(Stop::IllFormed),
        }
    }
}

/// Whether a phi takes the value of a phi that stands before it, which the same edge sets.
fn phis_swap(block: &BasicBlock, from: &str) -> bool {
    let mut before: Vec<&str> = vec![];
    for inst in &block.insts {
        let InstKind::Phi { incoming, .. } = &inst.kind else { break };
        match incoming.iter().find(|(_, label)| label == from) {
            Some((Value::Local(name), _)) if before.contains(&name.as_str()) => return true,
            _ => before.extend(inst.dest.as_deref()),
        }
    }
    false
}

/// A place is fixed where its count is absent or an integer.
pub fn fixed_count(count: &Option<TypedVal>) -> Option<u64> {
    match count {
        None => Some(1),
        Some(TypedVal { val: Value::Int(number), .. }) => Some(*number as u64),
        Some(_) => None,
    }
}

/// The width of a type's values; a pointer's is 64.
pub fn width_of(ty: &Type) -> Result<u32, Stop> {
    match ty {
        Type::Int(width) => Ok(*width),
        Type::Ptr => Ok(64),
        Type::Array { .. } | Type::Struct(_) | Type::NamedStruct(_) => Err(Stop::Aggregate),
        _ => Err(Stop::IllFormed),
    }
}

pub fn integer_width(ty: &Type) -> Result<u32, Stop> {
    if *ty == Type::Ptr { Err(Stop::IllFormed) } else { width_of(ty) }
}

/// The width of a function's or a call's result; none for void.
pub fn result_width(ty: &Type) -> Result<Option<u32>, Stop> {
    match ty {
        Type::Void => Ok(None),
        Type::Int(width) => Ok(Some(*width)),
        Type::Ptr => Ok(Some(64)),
        _ => Err(Stop::ResultType),
    }
}
