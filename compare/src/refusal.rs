//! The first refusal of a sound book from 5 to 19, found by our own reading of document 01 and the published statement order.
//! The Rust knows no 7; this says where one comes before the Rust's own fault. For all other books it must agree with the Rust.
use crate::book::*;
use crate::hash::{Map, Set};
use crate::measure::{align_up, Measure};
use std::ops::Range;

const MOST_FRAME: u128 = 1 << 31;
const MOST_SLOTS: usize = 65_535;
const MOST_ARGS: usize = 255;

pub struct First {
    pub refusal: Option<u8>,
    /// The place of the function that has it; behind the last one where there is none.
    pub place: usize,
    /// Steps that measuring types takes the Rust.
    pub steps: u64,
}

/// Functions are walked over in order.
pub fn first(book: &Book) -> First {
    among(book, 0..book.functions.len())
}

/// The same of one function by itself; the others count as defined.
#[cfg(proved)]
pub fn of_function(book: &Book, place: usize) -> First {
    among(book, place..place + 1)
}

fn among(book: &Book, places: Range<usize>) -> First {
    let mut measure = Measure::new(book);
    let defined = defined(book);
    let mut place = places.start;
    let refusal = book.functions[places].iter().find_map(|function| {
        let refusal = Walk::new(&mut measure, &defined, function).function(function).err();
        place += refusal.is_none() as usize;
        refusal
    });
    First { refusal, place, steps: measure.steps }
}

/// The names marked 1, and those of the book's functions.
fn defined(book: &Book) -> Set<&str> {
    let marked = book.marks.iter().filter(|(mark, _)| *mark == Mark::Defined).map(|(_, name)| name.as_str());
    marked.chain(book.functions.iter().map(|function| function.name.as_str())).collect()
}

/// Nothing, or the refusal.
type Pass = Result<(), u8>;

/// One function's.
struct Walk<'w, 'a> {
    measure: &'w mut Measure<'a>,
    params: Set<&'a str>,
    /// Names with a slot.
    slots: Set<&'a str>,
    /// Later blocks of a name win.
    blocks: Map<&'a str, &'a BasicBlock>,
    /// Names with a fixed place.
    places: Set<&'a str>,
    defined: &'w Set<&'a str>,
}

fn must(holds: bool, refusal: u8) -> Pass {
    if holds { Ok(()) } else { Err(refusal) }
}

/// 9 unless the type is an integer or pointer; else its width.
fn width(ty: &Type) -> Result<u32, u8> {
    match ty {
        Type::Int(width) => Ok(*width),
        Type::Ptr => Ok(64),
        _ => Err(9),
    }
}

fn sign_extends(from: u32, to: u32) -> bool {
    let working = if to <= 32 { 32 } else { 64 };
    from == 1 || from < working
}

/// How many a fixed place holds; none where the count varies.
fn fixed_count(count: &Option<TypedVal>) -> Option<u64> {
    match count {
        None => Some(1),
        Some(TypedVal { val: Value::Int(number), .. }) => Some(*number as u64),
        Some(_) => None,
    }
}

impl<'w, 'a> Walk<'w, 'a> {
    fn new(measure: &'w mut Measure<'a>, defined: &'w Set<&'a str>, function: &'a Function) -> Walk<'w, 'a> {
        Walk {
            measure,
            params: function.params.iter().filter_map(|param| param.name.as_deref()).collect(),
            slots: instructions(function).filter_map(|inst| inst.dest.as_deref()).collect(),
            blocks: function.blocks.iter().map(|block| (block.label.as_str(), block)).collect(),
            places: Set::default(),
            defined,
        }
    }

    fn function(&mut self, function: &'a Function) -> Pass {
        let has_frame = self.frame(function)?;
        let slots: usize = instructions(function).filter(|inst| inst.dest.is_some()).map(|inst| slots_of(&inst.kind)).sum();
        must(slots + has_frame as usize <= MOST_SLOTS, 8)?;
        for block in &function.blocks {
            for inst in &block.insts {
                self.inst(inst)?;
            }
            self.term(&block.label, &block.term)?;
        }
        Ok(())
    }

    /// The frame pass. Tells whether the function has a frame.
    fn frame(&mut self, function: &'a Function) -> Result<bool, u8> {
        let mut end = 0;
        let mut varies = false;
        for inst in instructions(function) {
            let InstKind::Alloca { ty, count, .. } = &inst.kind else { continue };
            let dest = inst.dest.as_deref().ok_or(5)?;
            let Some(count) = fixed_count(count) else {
                varies = true;
                continue;
            };
            let start = align_up(end, self.measure.align(ty)?);
            let size = self.measure.size(ty)?;
            let wide_end = start as u128 + size as u128 * count as u128;
            must(wide_end <= MOST_FRAME, 7)?;
            end = wide_end as u64;
            self.places.insert(dest);
        }
        Ok(end > 0 || varies)
    }

    fn value(&self, value: &Value) -> Pass {
        match value {
            Value::Local(name) => must(self.params.contains(name.as_str()) || self.slots.contains(name.as_str()), 10),
            _ => Ok(()),
        }
    }

    fn typed(&self, typed: &TypedVal) -> Pass {
        width(&typed.ty)?;
        self.value(&typed.val)
    }

    fn atomic(&mut self, ty: &'a Type) -> Pass {
        let size = self.measure.size(ty)?;
        must(size == 8, 12)
    }

    fn scalar_size(&mut self, ty: &'a Type) -> Pass {
        let size = self.measure.size(ty)?;
        must(matches!(size, 1 | 2 | 4 | 8), 11)
    }

    fn inst(&mut self, inst: &'a Inst) -> Pass {
        let named = must(inst.dest.is_some(), 5);
        match &inst.kind {
            InstKind::Bin { ty, lhs, rhs, .. } | InstKind::ICmp { ty, lhs, rhs, .. } => {
                width(ty)?;
                self.value(lhs)?;
                self.value(rhs)?;
                named
            }
            InstKind::Conv { op, from_ty, val, to_ty } => {
                let from = width(from_ty)?;
                let to = if *op == ConvOp::BitCast { from } else { width(to_ty)? };
                self.value(val)?;
                must(*op != ConvOp::SExt || sign_extends(from, to), 13)?;
                named
            }
            InstKind::Select { cond, ty, tval, fval } => {
                width(ty)?;
                self.value(cond)?;
                self.value(tval)?;
                self.value(fval)?;
                named
            }
            InstKind::Load { ty, ptr, .. } => {
                self.scalar_size(ty)?;
                self.value(ptr)?;
                named
            }
            InstKind::Store { ty, val, ptr, .. } => {
                self.scalar_size(ty)?;
                self.value(ptr)?;
                width(ty)?;
                self.value(val)
            }
            InstKind::Alloca { ty, count, align } => {
                let dest = inst.dest.as_deref().ok_or(5)?;
                if self.places.contains(dest) {
                    return Ok(());
                }
                self.measure.size(ty)?;
                if align.is_none() {
                    self.measure.align(ty)?;
                }
                count.as_ref().map_or(Ok(()), |count| self.value(&count.val))
            }
            InstKind::GetElementPtr { base_ty, ptr, indices, .. } => {
                self.descend(base_ty, indices)?;
                self.value(ptr)?;
                for index in indices {
                    self.value(&index.val)?;
                }
                named
            }
            InstKind::Phi { .. } | InstKind::Fence => Ok(()),
            InstKind::Call { callee, args, .. } => self.call(callee, args),
            InstKind::Freeze { ty, val } => {
                self.measure.size(ty)?;
                self.value(val)?;
                named
            }
            InstKind::AtomicLoad { ty, ptr } => {
                self.atomic(ty)?;
                self.value(ptr)?;
                named
            }
            InstKind::AtomicStore { ty, val, ptr } => {
                self.atomic(ty)?;
                self.value(ptr)?;
                self.value(val)
            }
            InstKind::Cmpxchg { ty, ptr, cmp, new } => {
                self.atomic(ty)?;
                named?;
                self.value(ptr)?;
                self.value(cmp)?;
                self.value(new)
            }
            InstKind::ExtractValue { agg, index } => {
                must(matches!(agg, Value::Local(name) if self.slots.contains(name.as_str())), 16)?;
                must(*index <= 1, 16)?;
                named
            }
            _ => unreachable!(),
        }
    }

    /// The walk of a getelementptr through its type.
    fn descend(&mut self, base_ty: &'a Type, indices: &[TypedVal]) -> Pass {
        let Some((first, rest)) = indices.split_first() else { return Ok(()) };
        self.measure.size(base_ty)?;
        stride(first)?;
        let mut ty = base_ty;
        for index in rest {
            let body = match ty {
                Type::Array { elem, .. } => {
                    self.measure.size(elem)?;
                    stride(index)?;
                    ty = elem;
                    continue;
                }
                Type::Struct(body) => body,
                Type::NamedStruct(name) => self.measure.resolve(name)?,
                _ => return Err(14),
            };
            let Value::Int(number) = index.val else { return Err(14) };
            let field = usize::try_from(number).ok().filter(|field| *field < body.fields.len()).ok_or(14)?;
            self.measure.field_offset(body, field)?;
            ty = &body.fields[field];
        }
        Ok(())
    }

    fn call(&self, callee: &Value, args: &[TypedVal]) -> Pass {
        let system = matches!(callee, Value::Global(name)
            if name.starts_with("__uvm_") || name == "bcmp" || name == "memcmp");
        must(system || args.len() <= MOST_ARGS, 15)?;
        for arg in args {
            self.typed(arg)?;
        }
        match callee {
            _ if system => Ok(()),
            Value::Global(name) => must(self.defined.contains(name.as_str()), 15),
            Value::Local(_) => self.value(callee),
            _ => Err(15),
        }
    }

    fn term(&self, block: &str, term: &Terminator) -> Pass {
        match term {
            Terminator::Ret { val } => val.as_ref().map_or(Ok(()), |val| self.typed(val)),
            Terminator::Br { cond: None, if_true, .. } => self.edge(block, if_true),
            Terminator::Br { cond: Some(cond), if_true, if_false } => {
                let if_false = if_false.as_ref().ok_or(19)?;
                self.value(cond)?;
                self.edge(block, if_true)?;
                self.edge(block, if_false)
            }
            Terminator::Switch { ty, val, default, cases } => {
                width(ty)?;
                // The value is pushed once for each case, so not at all without one.
                if !cases.is_empty() {
                    self.value(val)?;
                }
                self.edge(block, default)?;
                cases.iter().try_for_each(|(_, target)| self.edge(block, target))
            }
            Terminator::Unreachable => Ok(()),
        }
    }

    fn edge(&self, from: &str, to: &str) -> Pass {
        let target = self.blocks.get(to).ok_or(17)?;
        let mut copies = vec![];
        for inst in &target.insts {
            let InstKind::Phi { ty, incoming } = &inst.kind else { break };
            must(inst.dest.is_some(), 5)?;
            let (value, _) = incoming.iter().find(|(_, block)| block == from).ok_or(18)?;
            copies.push((ty, value));
        }
        for (ty, value) in copies {
            width(ty)?;
            self.value(value)?;
        }
        Ok(())
    }
}

/// An index over elements: a varying one needs an integer or pointer type.
fn stride(index: &TypedVal) -> Pass {
    match index.val {
        Value::Int(_) => Ok(()),
        _ => width(&index.ty).map(|_| ()),
    }
}

/// How many slots a result takes.
fn slots_of(inst: &InstKind) -> usize {
    match inst {
        InstKind::Cmpxchg { .. } => 2,
        InstKind::Call { callee: Value::Global(name), .. } if name.contains(".with.overflow.") => 2,
        _ => 1,
    }
}
