//! How types, values, instructions and blocks stand in a book: document 01's 'The book', with its limits.
use crate::ir::{Block, Function, Inst, Op, StructBody, Terminator, Type, TypedVal, Value};
use crate::kind;
use crate::names::Names;

/// At most so many levels has a type.
pub const MOST_LEVELS: u32 = 64;
/// At most so many indices has a getelementptr.
pub const MOST_INDICES: usize = 32;
/// No stated align is higher.
pub const HIGHEST_ALIGN: u64 = 4096;

/// Kind and word, which is a name's number for now where it names something.
pub type Entry = (u64, u64);

/// Done, or the reason why not.
pub type Put = Result<(), String>;

pub struct Pen<'p, 'b> {
    pub names: &'p mut Names<'b>,
    pub entries: &'p mut Vec<Entry>,
    /// Whether what document 01 gives a 3 for is turned down, and a call without lines left out.
    pub strict: bool,
}

impl<'b> Pen<'_, 'b> {
    pub fn put(&mut self, kind: u64, word: u64) -> Put {
        self.entries.push((kind, word));
        Ok(())
    }

    pub fn named(&mut self, kind: u64, name: &'b str) -> Put {
        let number = self.names.number(name)?;
        self.put(kind, number)
    }

    /// The word is the name's number + 1, or 0.
    fn maybe_named(&mut self, kind: u64, name: Option<&'b str>) -> Put {
        let word = match name {
            None => 0,
            Some(name) => self.names.number(name)? + 1,
        };
        self.put(kind, word)
    }

    fn end(&mut self) -> Put {
        self.put(kind::END, 0)
    }

    fn absent(&mut self) -> Put {
        self.put(kind::ABSENT, 0)
    }

    /// A function up to its blocks.
    pub fn head(&mut self, function: &'b Function<'_>) -> Put {
        self.named(kind::FUNCTION, &function.name)?;
        self.ty(&function.ret_ty).map_err(|reason| format!("its return type: {reason}"))?;
        for (place, param) in function.params.iter().enumerate() {
            self.maybe_named(kind::PARAM, param.name.as_deref())
                .and_then(|()| self.ty(&param.ty))
                .map_err(|reason| format!("parameter {}: {reason}", place + 1))?;
        }
        self.end()
    }

    /// A block, up to the instruction that has the entry of this number, if one has it: its place, the terminator's being
    /// behind the last. Where an instruction is turned down, its place and the reason.
    pub fn block(&mut self, block: &'b Block<'_>, until: usize) -> Result<Option<usize>, (usize, String)> {
        self.named(kind::BLOCK, &block.label).map_err(|reason| (0, reason))?;
        for (place, inst) in block.insts.iter().enumerate() {
            if self.strict && has_no_lines(inst) {
                // A fence has no lines either, and a phi behind it stays one that does not lead its block.
                if matches!(block.insts.get(place + 1).map(|next| &next.op), Some(Op::Phi { .. })) {
                    self.entries.push((kind::FENCE, 0));
                }
                continue;
            }
            self.inst(inst).map_err(|reason| (place, reason))?;
            if self.entries.len() > until {
                return Ok(Some(place));
            }
        }
        self.term(&block.term).map_err(|reason| (block.insts.len(), reason))?;
        Ok((self.entries.len() > until).then_some(block.insts.len()))
    }

    /// The blocks' end.
    pub fn tail(&mut self) -> Put {
        self.end()
    }

    /// A named struct's body; none: opaque.
    pub fn struct_body(&mut self, body: Option<&'b StructBody<'_>>) -> Put {
        match body {
            None => self.put(kind::OPAQUE, 0),
            Some(body) => self.fields(body, 1),
        }
    }

    fn ty(&mut self, ty: &'b Type<'_>) -> Put {
        self.ty_at(ty, 1)
    }

    /// A type that is so many levels down, from 1.
    fn ty_at(&mut self, ty: &'b Type<'_>, level: u32) -> Put {
        if level > MOST_LEVELS {
            return Err(format!("a type of more than {MOST_LEVELS} levels"));
        }
        match ty {
            Type::Void => self.put(kind::VOID, 0),
            Type::Int(width @ (1 | 8 | 16 | 32 | 64)) => self.put(kind::INT, u64::from(*width)),
            Type::Int(width) => Err(format!("a book has integers of 1, 8, 16, 32 and 64 bits, and no i{width}")),
            Type::Ptr => self.put(kind::PTR, 0),
            Type::Array { packed, len, elem } => {
                self.put(if *packed { kind::PACKED_ARRAY } else { kind::ARRAY }, *len)?;
                self.ty_at(elem, level + 1)
            }
            Type::Named(name) => self.named(kind::NAMED, name),
            Type::Struct(body) => self.fields(body, level),
            Type::Func => self.put(kind::FUNC_TYPE, 0),
            Type::Label => self.put(kind::LABEL, 0),
            Type::Metadata => self.put(kind::METADATA, 0),
            Type::Other(words) => Err(format!("a book has no type {words}")),
        }
    }

    /// A struct that is itself so many levels down.
    fn fields(&mut self, body: &'b StructBody<'_>, level: u32) -> Put {
        self.put(if body.packed { kind::PACKED_STRUCT } else { kind::STRUCT }, 0)?;
        for field in &body.fields {
            self.ty_at(field, level + 1)?;
        }
        self.end()
    }

    fn value(&mut self, value: &'b Value<'_>) -> Put {
        match value {
            Value::Local(name) => self.named(kind::LOCAL, name),
            Value::Global(name) => self.named(kind::GLOBAL, name),
            Value::Int(number) => self.integer(*number),
            Value::Null => self.put(kind::NULL, 0),
            Value::Undef => self.put(kind::UNDEF, 0),
            Value::Poison => self.put(kind::POISON, 0),
            Value::ZeroInit => self.put(kind::ZERO_INIT, 0),
            Value::Other(words) if self.strict => Err(format!("a book has no such operand: {words}")),
            Value::Other(_) => self.put(kind::OTHER, 0),
        }
    }

    /// Its word is two's complement, so it may be meant with a sign or without.
    fn integer(&mut self, number: i128) -> Put {
        if number < i128::from(i64::MIN) || number > i128::from(u64::MAX) {
            return Err(format!("the integer {number} has more than 64 bits"));
        }
        self.put(kind::INTEGER, number as u64)
    }

    fn values(&mut self, values: &[&'b Value<'_>]) -> Put {
        values.iter().try_for_each(|value| self.value(value))
    }

    fn typed(&mut self, typed: &'b TypedVal<'_>) -> Put {
        self.ty(&typed.ty)?;
        self.value(&typed.val)
    }

    fn index(&mut self, index: &'b TypedVal<'_>) -> Put {
        match index.val {
            Value::Int(number) if i32::try_from(number).is_err() => {
                Err(format!("the index {number} is outside -2^31 to 2^31 - 1"))
            }
            _ => self.typed(index),
        }
    }

    fn align(&mut self, align: Option<u64>) -> Put {
        match align {
            None => self.absent(),
            Some(align) if align.is_power_of_two() && align <= HIGHEST_ALIGN => self.put(kind::NUMBER, align),
            Some(align) => Err(format!("align {align} is no power of two up to {HIGHEST_ALIGN}")),
        }
    }

    fn target(&mut self, block: &'b str) -> Put {
        self.named(kind::TARGET, block)
    }

    fn callee(&mut self, callee: &'b Value<'_>) -> Put {
        match callee {
            Value::Global(name) if self.strict && name.starts_with("llvm.") => {
                Err(format!("a book has no call of an intrinsic, and @{name} is one"))
            }
            Value::Global(name) if self.strict && is_reserved(name) => {
                Err(format!("a book has no call of a floating-point function, and @{name} is one"))
            }
            _ => self.value(callee),
        }
    }

    fn inst(&mut self, inst: &'b Inst<'_>) -> Put {
        self.maybe_named(op_kind(&inst.op)?, inst.dest.as_deref())?;
        match &inst.op {
            Op::Bin { ty, lhs, rhs, .. } | Op::ICmp { ty, lhs, rhs, .. } => {
                self.ty(ty)?;
                self.values(&[lhs, rhs])
            }
            Op::Conv { from_ty, val, to_ty, .. } => {
                self.ty(from_ty)?;
                self.value(val)?;
                self.ty(to_ty)
            }
            Op::Select { cond, ty, tval, fval } => {
                self.value(cond)?;
                self.ty(ty)?;
                self.values(&[tval, fval])
            }
            Op::GetElementPtr { base_ty, ptr, indices } => self.gep(base_ty, ptr, indices),
            Op::Phi { ty, incoming } => {
                self.ty(ty)?;
                for (value, block) in incoming {
                    self.value(value)?;
                    self.target(block)?;
                }
                self.end()
            }
            Op::Call { ret_ty, callee, args } => {
                self.ty(ret_ty)?;
                self.callee(callee)?;
                args.iter().try_for_each(|arg| self.typed(arg))?;
                self.end()
            }
            Op::Freeze { ty, val } => {
                self.ty(ty)?;
                self.value(val)
            }
            Op::ExtractValue { agg, index } => {
                self.value(agg)?;
                self.put(kind::NUMBER, u64::from(*index))
            }
            Op::Fence => Ok(()),
            op => self.memory(op),
        }
    }

    /// The instructions that read or write memory, or make a place in it.
    fn memory(&mut self, op: &'b Op<'_>) -> Put {
        match op {
            Op::Load { ty, ptr, align } => {
                self.ty(ty)?;
                self.value(ptr)?;
                self.align(*align)
            }
            Op::Store { ty, val, ptr, align } => {
                self.ty(ty)?;
                self.values(&[val, ptr])?;
                self.align(*align)
            }
            Op::Alloca { ty, count, align } => {
                self.ty(ty)?;
                match count {
                    None => self.absent()?,
                    Some(count) => self.typed(count)?,
                }
                self.align(*align)
            }
            Op::AtomicLoad { ty, ptr } => {
                self.ty(ty)?;
                self.value(ptr)
            }
            Op::AtomicStore { ty, val, ptr } => {
                self.ty(ty)?;
                self.values(&[val, ptr])
            }
            Op::Cmpxchg { ty, ptr, cmp, new } => {
                self.ty(ty)?;
                self.values(&[ptr, cmp, new])
            }
            _ => unreachable!("`inst` has the others"),
        }
    }

    fn gep(&mut self, base_ty: &'b Type<'_>, ptr: &'b Value<'_>, indices: &'b [TypedVal<'_>]) -> Put {
        if indices.len() > MOST_INDICES {
            return Err(format!("a getelementptr has {MOST_INDICES} indices at most, and here are {}", indices.len()));
        }
        self.ty(base_ty)?;
        self.value(ptr)?;
        indices.iter().try_for_each(|index| self.index(index))?;
        self.end()
    }

    fn term(&mut self, term: &'b Terminator<'_>) -> Put {
        self.put(term_kind(term)?, 0)?;
        match term {
            Terminator::Ret { val: None } => self.absent(),
            Terminator::Ret { val: Some(val) } => self.typed(val),
            Terminator::Br { cond, if_true, if_false } => {
                match cond {
                    None => self.absent()?,
                    Some(cond) => self.value(cond)?,
                }
                self.target(if_true)?;
                match if_false {
                    None => self.absent(),
                    Some(block) => self.target(block),
                }
            }
            Terminator::Switch { ty, val, default, cases } => {
                self.ty(ty)?;
                self.value(val)?;
                self.target(default)?;
                for (number, block) in cases {
                    self.integer(*number)?;
                    self.target(block)?;
                }
                self.end()
            }
            Terminator::Unreachable | Terminator::Other(_) => Ok(()),
        }
    }
}

/// The entry kind of an instruction.
fn op_kind(op: &Op) -> Result<u64, String> {
    Ok(match op {
        Op::Bin { op, .. } => kind::BIN + *op as u64,
        Op::Conv { op, .. } => kind::CONV + *op as u64,
        Op::ICmp { pred, .. } => kind::ICMP + *pred as u64,
        Op::Select { .. } => kind::SELECT,
        Op::Load { .. } => kind::LOAD,
        Op::Store { .. } => kind::STORE,
        Op::Alloca { .. } => kind::ALLOCA,
        Op::GetElementPtr { .. } => kind::GEP,
        Op::Phi { .. } => kind::PHI,
        Op::Call { .. } => kind::CALL,
        Op::Freeze { .. } => kind::FREEZE,
        Op::AtomicLoad { .. } => kind::ATOMIC_LOAD,
        Op::AtomicStore { .. } => kind::ATOMIC_STORE,
        Op::Cmpxchg { .. } => kind::CMPXCHG,
        Op::ExtractValue { .. } => kind::EXTRACT_VALUE,
        Op::Fence => kind::FENCE,
        Op::Other(word) => return Err(format!("a book has no instruction {word}")),
    })
}

/// The entry kind of a terminator.
fn term_kind(term: &Terminator) -> Result<u64, String> {
    Ok(match term {
        Terminator::Ret { .. } => kind::RET,
        Terminator::Br { .. } => kind::BR,
        Terminator::Switch { .. } => kind::SWITCH,
        Terminator::Unreachable => kind::UNREACHABLE,
        Terminator::Other(word) => return Err(format!("a book has no terminator {word}")),
    })
}

/// Whether it is a call of an intrinsic that does nothing, and has no result that something could name.
fn has_no_lines(inst: &Inst) -> bool {
    match &inst.op {
        Op::Call { callee: Value::Global(name), .. } => inst.dest.is_none() && is_hint(name),
        _ => false,
    }
}

/// Whether a name is that of an intrinsic which tells the compiler something and does nothing: where a variable lives, what
/// may be assumed, what a debugger shows. uvclang has no lines for the calls that it knows of these.
pub fn is_hint(name: &str) -> bool {
    const WHOLE: [&str; 3] = ["llvm.assume", "llvm.donothing", "llvm.experimental.noalias.scope.decl"];
    name.starts_with("llvm.lifetime.") || name.starts_with("llvm.dbg.") || WHOLE.contains(&name)
}

/// Whether a name is one of C's floating-point functions that uvclang makes lines of by itself (`is_float_builtin`): a
/// book marks it as reserved. Each has a second name with an `f` behind it.
pub fn is_reserved(name: &str) -> bool {
    const DOUBLES: [&str; 17] = [
        "sin", "cos", "tan", "asin", "acos", "atan", "sqrt", "fabs", "pow", "exp2", "floor", "ceil", "trunc", "round",
        "fmin", "fmax", "copysign",
    ];
    DOUBLES.contains(&name) || name.strip_suffix('f').is_some_and(|double| DOUBLES.contains(&double))
}
