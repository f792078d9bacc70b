//! Instructions, one maker for each sort.
use super::Maker;
use crate::book::*;
use crate::oracle::is_reserved;

impl Maker {
    fn align(&mut self) -> Option<u64> {
        if self.rng.chance(700) { None } else { Some(1 << self.rng.below(13)) }
    }

    /// One instruction, or a cmpxchg and what reads it.
    pub fn inst(&mut self, insts: &mut Vec<Inst>) {
        let inst = match self.rng.below(100) {
            0..=21 => self.bin(),
            22..=33 => self.conv(),
            34..=43 => self.icmp(),
            44..=49 => self.select(),
            50..=56 => self.load(),
            57..=63 => self.store(),
            64..=71 => self.alloca(),
            72..=80 => self.gep(),
            81..=89 => self.call(),
            90..=92 => self.freeze(),
            93..=94 => {
                let ty = self.eight_bytes();
                let ptr = self.value(&Type::Ptr);
                Inst { dest: self.result(ty.clone()), kind: InstKind::AtomicLoad { ty, ptr } }
            }
            95 => {
                let ty = self.eight_bytes();
                let (val, ptr) = (self.value(&ty), self.value(&Type::Ptr));
                Inst { dest: self.idle_result(), kind: InstKind::AtomicStore { ty, val, ptr } }
            }
            96..=98 => return self.cmpxchg(insts),
            _ => Inst { dest: self.idle_result(), kind: InstKind::Fence },
        };
        insts.push(inst);
    }

    /// A name for an instruction that has no value: it takes a slot that nobody sets.
    fn idle_result(&mut self) -> Option<String> {
        if self.loose && self.rng.chance(200) { self.result(Type::Void) } else { None }
    }

    fn bin(&mut self) -> Inst {
        let op = *self.rng.pick(&BIN_OPS);
        let ty = if self.loose && self.rng.chance(100) { Type::Ptr } else { self.int_type() };
        let (lhs, rhs) = (self.value(&ty), self.value(&ty));
        Inst { dest: self.result(ty.clone()), kind: InstKind::Bin { op, ty, lhs, rhs } }
    }

    fn icmp(&mut self) -> Inst {
        let pred = *self.rng.pick(&PREDS);
        let ty = self.scalar();
        let (lhs, rhs) = (self.value(&ty), self.value(&ty));
        Inst { dest: self.result(Type::Int(1)), kind: InstKind::ICmp { pred, ty, lhs, rhs } }
    }

    fn conv(&mut self) -> Inst {
        let op = *self.rng.pick(&CONV_OPS);
        let (from_ty, to_ty) = self.conv_types(op);
        let val = self.value(&from_ty);
        Inst { dest: self.result(to_ty.clone()), kind: InstKind::Conv { op, from_ty, val, to_ty } }
    }

    fn conv_types(&mut self, op: ConvOp) -> (Type, Type) {
        if self.loose && op != ConvOp::SExt && self.rng.chance(300) {
            let to = if op == ConvOp::BitCast { self.any_type() } else { self.scalar() };
            return (self.scalar(), to);
        }
        if self.loose && op == ConvOp::SExt && self.rng.chance(300) {
            let from = *self.rng.pick(&[1, 8, 16]);
            return (Type::Int(from), self.scalar());
        }
        let narrow = self.rng.below(4);
        let wide = self.rng.range(narrow + 1, 4);
        let (narrow, wide) = (Type::Int(WIDTHS[narrow]), Type::Int(WIDTHS[wide]));
        match op {
            ConvOp::Trunc => (wide, narrow),
            ConvOp::ZExt | ConvOp::SExt => (narrow, wide),
            ConvOp::PtrToInt => (Type::Ptr, self.int_type()),
            ConvOp::IntToPtr => (self.int_type(), Type::Ptr),
            _ => (wide.clone(), wide),
        }
    }

    fn select(&mut self) -> Inst {
        let ty = self.scalar();
        let (cond, tval, fval) = (self.value(&Type::Int(1)), self.value(&ty), self.value(&ty));
        Inst { dest: self.result(ty.clone()), kind: InstKind::Select { cond, ty, tval, fval } }
    }

    fn load(&mut self) -> Inst {
        let ty = if self.loose && self.rng.chance(200) { self.small_aggregate() } else { self.scalar() };
        let (ptr, align) = (self.value(&Type::Ptr), self.align());
        Inst { dest: self.result(ty.clone()), kind: InstKind::Load { ty, ptr, align } }
    }

    fn store(&mut self) -> Inst {
        let ty = self.scalar();
        let (val, ptr, align) = (self.value(&ty), self.value(&Type::Ptr), self.align());
        Inst { dest: self.idle_result(), kind: InstKind::Store { ty, val, ptr, align } }
    }

    fn alloca(&mut self) -> Inst {
        let (ty, count) = match self.rng.below(25) {
            // A size of 0 makes any count fit.
            0 => {
                let none = Type::Struct(StructBody { packed: false, fields: vec![] });
                (none, Some(TypedVal { ty: Type::Int(64), val: Value::Int(self.integer()) }))
            }
            1 if self.loose => (Type::Void, None),
            _ => (self.sized(2), self.count()),
        };
        let align = self.align();
        Inst { dest: self.result(Type::Ptr), kind: InstKind::Alloca { ty, count, align } }
    }

    fn count(&mut self) -> Option<TypedVal> {
        let sort = self.rng.below(10);
        if sort < 6 {
            return None;
        }
        let ty = self.count_type();
        let val = match sort {
            6 => Value::Int(self.rng.below(40) as i128),
            7 => Value::Int(*self.rng.pick(&[0, 0, 1, 1 << 16, 1 << 24])),
            _ if self.loose => self.any_local().map_or(Value::Null, Value::Local),
            _ => self.local(&ty).map_or(Value::Undef, Value::Local),
        };
        Some(TypedVal { ty, val })
    }

    /// Nobody looks at a count's type.
    fn count_type(&mut self) -> Type {
        if self.loose && self.rng.chance(200) { self.any_type() } else { self.int_type() }
    }

    fn gep(&mut self) -> Inst {
        let base_ty = if self.rng.chance(100) { Type::Int(8) } else { self.sized(3) };
        let mut indices = vec![];
        if !self.rng.chance(20) {
            indices.push(self.index());
            let mut ty = base_ty.clone();
            while self.rng.chance(800) {
                match self.step(&ty) {
                    Some((index, part)) => {
                        indices.push(index);
                        ty = part;
                    }
                    None => break,
                }
            }
        }
        let ptr = self.value(&Type::Ptr);
        let kind = InstKind::GetElementPtr { inbounds: false, base_ty, ptr, indices };
        Inst { dest: self.result(Type::Ptr), kind }
    }

    /// An index over elements.
    pub fn index(&mut self) -> TypedVal {
        let ty = if self.loose && self.rng.chance(100) { Type::Ptr } else { self.int_type() };
        if self.rng.chance(450) {
            let val = match self.rng.below(6) {
                0..=2 => Value::Int(self.rng.below(4) as i128),
                3 => Value::Int(-(self.rng.below(4) as i128)),
                4 => Value::Int(*self.rng.pick(&[i32::MAX, i32::MIN, i32::MAX - 1, 1 << 16, -(1 << 20)]) as i128),
                _ => Value::Int(self.integer() as i32 as i128),
            };
            // A constant's type is not looked at.
            let ty = if self.loose && self.rng.chance(200) { self.any_type() } else { ty };
            return TypedVal { ty, val };
        }
        match self.value(&ty) {
            Value::Int(number) => TypedVal { ty, val: Value::Int(number as i32 as i128) },
            val => TypedVal { ty, val },
        }
    }

    /// An index that steps into a part of the type, and the part.
    fn step(&mut self, ty: &Type) -> Option<(TypedVal, Type)> {
        let body = match ty {
            Type::Array { elem, .. } => return Some((self.index(), (**elem).clone())),
            Type::Struct(body) => body.clone(),
            Type::NamedStruct(name) => self.structs.iter().find(|(other, _)| other == name)?.1.clone()?,
            _ => return None,
        };
        if body.fields.is_empty() {
            return None;
        }
        let field = self.rng.below(body.fields.len());
        let ty = if self.loose && self.rng.chance(100) { self.any_type() } else { Type::Int(32) };
        Some((TypedVal { ty, val: Value::Int(field as i128) }, body.fields[field].clone()))
    }

    pub fn args(&mut self) -> Vec<TypedVal> {
        let count = match self.rng.below(200) {
            0 => 255,
            1 => self.rng.range(5, 40),
            _ => self.rng.below(5),
        };
        (0..count)
            .map(|_| {
                let ty = self.scalar();
                self.typed(ty)
            })
            .collect()
    }

    fn call(&mut self) -> Inst {
        let callee = match self.rng.below(10) {
            _ if self.functions.len() > 1 && self.rng.chance(400) => self.function_of_book(),
            0 => self.note_global(&["bcmp", "memcmp"]),
            1..=3 => self.note_global(&["__uvm_print", "__uvm_", "__uvm_memcmp", "__uvm_a b", "__uvm_x.with.overflow.y"]),
            4..=5 => {
                let pointer = if self.loose { self.any_local() } else { self.local(&Type::Ptr) };
                pointer.map_or(Value::Global(self.defined[0].clone()), Value::Local)
            }
            6 => {
                let name = self.note("x.with.overflow.y");
                self.defined.push(name.clone());
                Value::Global(name)
            }
            7 if self.functions.len() == 1 => Value::Global(self.own.clone()),
            7 => self.function_of_book(),
            _ => Value::Global(self.rng.pick(&self.defined).clone()),
        };
        let callee = match callee {
            // Those get refusal 3 as callees.
            Value::Global(name) if name.starts_with("llvm.") || is_reserved(&name) => self.note_global(&["memcmp"]),
            callee => callee,
        };
        let args = self.args();
        let ret_ty = match self.rng.below(10) {
            0..=1 => Type::Void,
            2 if self.loose => self.any_type(),
            _ => self.scalar(),
        };
        let named = if ret_ty == Type::Void { self.loose && self.rng.chance(300) } else { self.rng.chance(800) };
        let dest = if named { self.result(ret_ty.clone()) } else { None };
        Inst { dest, kind: InstKind::Call { ret_ty, fn_ty: None, callee, args } }
    }

    /// The function itself, one before it or one behind it.
    fn function_of_book(&mut self) -> Value {
        Value::Global(self.rng.pick(&self.functions).clone())
    }

    fn note_global(&mut self, names: &[&str]) -> Value {
        let name = *self.rng.pick(names);
        Value::Global(self.note(name))
    }

    fn freeze(&mut self) -> Inst {
        let ty = if self.rng.chance(700) { self.scalar() } else { self.sized(2) };
        let val = if self.loose { self.any_value() } else { self.value(&ty) };
        Inst { dest: self.result(ty.clone()), kind: InstKind::Freeze { ty, val } }
    }

    fn cmpxchg(&mut self, insts: &mut Vec<Inst>) {
        let ty = self.eight_bytes();
        let (ptr, cmp, new) = (self.value(&Type::Ptr), self.value(&ty), self.value(&ty));
        let pair = Type::Struct(StructBody { packed: false, fields: vec![ty.clone(), Type::Int(1)] });
        let name = self.new_local("pair");
        insts.push(Inst { dest: Some(name.clone()), kind: InstKind::Cmpxchg { ty: ty.clone(), ptr, cmp, new } });
        for (index, ty) in [ty, Type::Int(1)].into_iter().enumerate() {
            if self.rng.chance(600) {
                let kind = InstKind::ExtractValue { agg: Value::Local(name.clone()), index: index as u32 };
                insts.push(Inst { dest: self.result(ty), kind });
            }
        }
        if self.loose && self.rng.chance(300) {
            self.scope.locals.push((name, pair));
        }
    }
}
