//! Which instruction a refusal is about. The translator gives a number alone; here it is asked again with parts left out.
use crate::ir::{Function, Inst, Module, Op, Terminator, Value};
use crate::unwritable::Place;
use crate::{BookWriter, Refusal, Unwritable};
use std::fmt;

/// So many arguments a call may have.
const MOST_ARGUMENTS: usize = 255;

/// Why a function has no lines: a refusal, and the instruction that it is about.
#[derive(Clone, Debug, PartialEq, Eq)]
pub struct Blame {
    pub refusal: Refusal,
    /// None where it is not one instruction's: too many slots.
    pub place: Option<Place>,
    /// What is known beyond the refusal's own words: which function is called and not defined.
    pub detail: Option<String>,
}

impl fmt::Display for Blame {
    fn fmt(&self, out: &mut fmt::Formatter) -> fmt::Result {
        match &self.detail {
            Some(detail) => write!(out, "{detail} (refusal {})", self.refusal.number()),
            None => write!(out, "{}", self.refusal),
        }
    }
}

/// What the translator refuses of a function in a book of its own; none where it has lines.
///
/// The instructions behind a place are taken out, each leaving its result's name and each block its label; the first place
/// up to which the refusal is still the whole function's is the instruction. Where parameters and results all have distinct
/// names, as in LLVM, taking less out keeps the refusal, so it is found by halving: a function of n instructions is
/// translated about log2 n times. Where a name is given twice a later instruction may take an earlier one's fault away, as a
/// fixed place does for a varying one of its name; then it is a place at which the refusal begins, and may be another's.
pub fn blame(module: &Module<'_>, function: &Function<'_>) -> Result<Option<Blame>, Unwritable> {
    let Some(refusal) = refusal(module, function)? else { return Ok(None) };
    let places = places(function);
    let (mut without, mut with) = (0, places.len());
    if self::refusal(module, &cut(function, 0))? == Some(refusal) {
        return Ok(Some(Blame { refusal, place: None, detail: None }));
    }
    while with - without > 1 {
        let middle = without + (with - without) / 2;
        match self::refusal(module, &cut(function, middle))? == Some(refusal) {
            true => with = middle,
            false => without = middle,
        }
    }
    let (block, inst) = places[without];
    let detail = function.blocks[block].insts.get(inst).and_then(|inst| detail(refusal, inst));
    Ok(Some(Blame { refusal, place: Some(Place::of(function, block, inst)), detail }))
}

/// What a call that is refused is refused for.
fn detail(refusal: Refusal, inst: &Inst) -> Option<String> {
    match &inst.op {
        Op::Call { args, .. } if refusal == Refusal::Call && args.len() > MOST_ARGUMENTS => {
            Some(format!("a call has {MOST_ARGUMENTS} arguments at most, and here are {}", args.len()))
        }
        Op::Call { callee: Value::Global(name), .. } if refusal == Refusal::Call => Some(format!("@{name} is not defined")),
        _ => None,
    }
}

fn refusal(module: &Module<'_>, function: &Function<'_>) -> Result<Option<Refusal>, Unwritable> {
    let mut writer = BookWriter::new(module);
    writer.function(function)?;
    Ok(writer.finish()?.translate(0).err())
}

/// Block and instruction, terminators too, in their order.
fn places(function: &Function) -> Vec<(usize, usize)> {
    let blocks = function.blocks.iter().enumerate();
    blocks.flat_map(|(place, block)| (0..=block.insts.len()).map(move |inst| (place, inst))).collect()
}

/// The function with its first so many instructions and terminators.
fn cut<'a>(function: &Function<'a>, kept: usize) -> Function<'a> {
    let mut function = function.clone();
    let mut left = kept;
    for block in &mut function.blocks {
        for inst in block.insts.iter_mut().skip(left) {
            *inst = Inst { dest: inst.dest.take(), op: Op::Fence };
        }
        if left <= block.insts.len() {
            block.term = Terminator::Unreachable;
        }
        left = left.saturating_sub(block.insts.len() + 1);
    }
    function
}
