//! Instructions of random functions, one maker for each sort.
use super::Maker;
use crate::book::*;

impl Maker {
    fn align(&mut self) -> Option<u64> {
        if self.rng.chance(700) { None } else { Some(1 << self.rng.below(8)) }
    }

    /// One instruction, or a few that belong together.
    pub fn inst(&mut self, insts: &mut Vec<Inst>) {
        let inst = match self.rng.below(100) {
            0..=23 => self.bin(insts),
            24..=35 => self.conv(),
            36..=43 => self.icmp(),
            44..=48 => self.select(),
            49..=56 => self.load(),
            57..=64 => self.store(),
            65..=69 => self.place(),
            70..=78 => self.gep(),
            79..=88 => self.call(),
            89..=91 => self.freeze(),
            92..=93 => self.atomic_load(),
            94..=95 => {
                let ty = self.eight_bytes();
                let (val, ptr) = (self.value(&ty), self.value(&Type::Ptr));
                Inst { dest: None, kind: InstKind::AtomicStore { ty, val, ptr } }
            }
            96..=98 => return self.cmpxchg(insts),
            _ => Inst { dest: None, kind: InstKind::Fence },
        };
        insts.push(inst);
    }

    /// Divisors are not 0 and shifts stay below the width, but for a few.
    fn bin(&mut self, insts: &mut Vec<Inst>) -> Inst {
        let signed = [BinOp::SDiv, BinOp::SRem, BinOp::AShr];
        let mut op = if self.rng.chance(200) { *self.rng.pick(&signed) } else { *self.rng.pick(&BIN_OPS) };
        let width = *self.rng.pick(&WIDTHS);
        let ty = Type::Int(width);
        // i1 has no quotient for -1 / -1.
        if width == 1 && matches!(op, BinOp::SDiv | BinOp::SRem) && self.rng.chance(700) {
            op = BinOp::Xor;
        }
        let lhs = self.value(&ty);
        let free = self.rng.below(1000) < 3 * self.risk;
        let rhs = match op {
            _ if free => self.value(&ty),
            BinOp::UDiv | BinOp::SDiv | BinOp::URem | BinOp::SRem => self.divisor(width, insts),
            BinOp::Shl | BinOp::LShr | BinOp::AShr => Value::Int(self.rng.below(width as usize) as i128),
            _ => self.value(&ty),
        };
        Inst { dest: self.result(ty.clone()), kind: InstKind::Bin { op, ty, lhs, rhs } }
    }

    /// A constant, or a value with its lowest bit set.
    fn divisor(&mut self, width: u32, insts: &mut Vec<Inst>) -> Value {
        let ty = Type::Int(width);
        if self.rng.chance(500) {
            let number = self.integer_of(width);
            return Value::Int(if number == 0 { 1 } else { number });
        }
        let lhs = self.value(&ty);
        let kind = InstKind::Bin { op: BinOp::Or, ty: ty.clone(), lhs, rhs: Value::Int(1) };
        let name = self.result(ty);
        insts.push(Inst { dest: name.clone(), kind });
        Value::Local(name.unwrap_or_default())
    }

    pub fn icmp(&mut self) -> Inst {
        let pred = *self.rng.pick(&PREDS);
        let ty = self.scalar();
        let (lhs, rhs) = (self.value(&ty), self.value(&ty));
        Inst { dest: self.result(Type::Int(1)), kind: InstKind::ICmp { pred, ty, lhs, rhs } }
    }

    fn conv(&mut self) -> Inst {
        let op = *self.rng.pick(&CONV_OPS);
        let narrow = self.rng.below(4);
        let wide = self.rng.range(narrow + 1, 4);
        let (narrow, wide) = (Type::Int(WIDTHS[narrow]), Type::Int(WIDTHS[wide]));
        let (from_ty, to_ty) = match op {
            ConvOp::Trunc => (wide, narrow),
            ConvOp::ZExt | ConvOp::SExt => (narrow, wide),
            ConvOp::PtrToInt => (Type::Ptr, self.int_type()),
            ConvOp::IntToPtr => (self.int_type(), Type::Ptr),
            _ => {
                let ty = self.scalar();
                (ty.clone(), ty)
            }
        };
        let val = self.value(&from_ty);
        Inst { dest: self.result(to_ty.clone()), kind: InstKind::Conv { op, from_ty, val, to_ty } }
    }

    fn select(&mut self) -> Inst {
        let ty = self.scalar();
        let (cond, tval, fval) = (self.value(&Type::Int(1)), self.value(&ty), self.value(&ty));
        Inst { dest: self.result(ty.clone()), kind: InstKind::Select { cond, ty, tval, fval } }
    }

    /// Few loads of i1: most bytes are above 1.
    fn load(&mut self) -> Inst {
        let mut ty = self.scalar();
        if ty == Type::Int(1) && !self.rng.chance(300) {
            ty = Type::Int(8);
        }
        let (ptr, align) = (self.value(&Type::Ptr), self.align());
        Inst { dest: self.result(ty.clone()), kind: InstKind::Load { ty, ptr, align } }
    }

    fn store(&mut self) -> Inst {
        let ty = self.scalar();
        let (val, ptr, align) = (self.value(&ty), self.value(&Type::Ptr), self.align());
        Inst { dest: None, kind: InstKind::Store { ty, val, ptr, align } }
    }

    /// Places of the first block, which is hardly ever run twice.
    pub fn fixed_places(&mut self, insts: &mut Vec<Inst>) {
        for place in 0..self.rng.below(4).saturating_sub(1) {
            // A frame of size 0 stops.
            let ty = if place == 0 && self.rng.chance(950) { self.scalar() } else { self.sized(2) };
            insts.push(self.fixed(ty));
        }
    }

    fn fixed(&mut self, ty: Type) -> Inst {
        let count = if self.rng.chance(700) {
            None
        } else {
            Some(TypedVal { ty: self.int_type(), val: Value::Int(self.rng.range(1, 3) as i128) })
        };
        let align = self.align();
        Inst { dest: self.result(Type::Ptr), kind: InstKind::Alloca { ty, count, align } }
    }

    fn place(&mut self) -> Inst {
        let ty = self.sized(1);
        if !self.in_loop && self.rng.chance(400) || self.rng.below(1000) < 3 * self.risk {
            return self.fixed(ty);
        }
        let count_ty = self.int_type();
        let count = match self.local(&count_ty) {
            Some(name) => Value::Local(name),
            None => self.rng.pick(&[Value::Undef, Value::ZeroInit]).clone(),
        };
        let (count, align) = (Some(TypedVal { ty: count_ty, val: count }), self.align());
        Inst { dest: self.result(Type::Ptr), kind: InstKind::Alloca { ty, count, align } }
    }

    fn gep(&mut self) -> Inst {
        let base_ty = self.sized(3);
        let mut indices = vec![self.index()];
        let mut ty = base_ty.clone();
        while self.rng.chance(850) {
            let Some((index, part)) = self.step(&ty) else { break };
            indices.push(index);
            ty = part;
        }
        let ptr = self.value(&Type::Ptr);
        Inst { dest: self.result(Type::Ptr), kind: InstKind::GetElementPtr { inbounds: false, base_ty, ptr, indices } }
    }

    /// An index over elements, varying or in the signed range of its type.
    fn index(&mut self) -> TypedVal {
        let width = *self.rng.pick(&WIDTHS);
        let ty = Type::Int(width);
        if self.rng.chance(500) {
            if let Some(name) = self.local(&ty) {
                return TypedVal { ty, val: Value::Local(name) };
            }
        }
        if width < 16 && self.rng.below(1000) < 8 * self.risk {
            return TypedVal { ty, val: Value::Int(200) };
        }
        let most = if width == 1 { 0 } else { 5 };
        TypedVal { ty, val: Value::Int(self.rng.below(most + 2) as i128 - 1) }
    }

    /// An index into a part of the type, and the part.
    fn step(&mut self, ty: &Type) -> Option<(TypedVal, Type)> {
        let body = match ty {
            Type::Array { elem, .. } => return Some((self.index(), (**elem).clone())),
            Type::Struct(body) => body.clone(),
            Type::NamedStruct(name) => self.structs.iter().find(|(other, _)| other == name)?.1.clone(),
            _ => return None,
        };
        if body.fields.is_empty() {
            return None;
        }
        let field = self.rng.below(body.fields.len());
        Some((TypedVal { ty: Type::Int(32), val: Value::Int(field as i128) }, body.fields[field].clone()))
    }

    fn freeze(&mut self) -> Inst {
        let ty = self.scalar();
        let val = if self.rng.chance(200) { Value::Poison } else { self.value(&ty) };
        Inst { dest: self.result(ty.clone()), kind: InstKind::Freeze { ty, val } }
    }

    fn eight_bytes(&mut self) -> Type {
        if self.rng.chance(300) { Type::Ptr } else { Type::Int(64) }
    }

    fn atomic_load(&mut self) -> Inst {
        let ty = self.eight_bytes();
        let ptr = self.value(&Type::Ptr);
        Inst { dest: self.result(ty.clone()), kind: InstKind::AtomicLoad { ty, ptr } }
    }

    /// A cmpxchg, half of them with what stands there, and what reads it.
    fn cmpxchg(&mut self, insts: &mut Vec<Inst>) {
        let ty = self.eight_bytes();
        let ptr = self.value(&Type::Ptr);
        let (mut cmp, new) = (self.value(&ty), self.value(&ty));
        if self.rng.chance(500) {
            let name = self.result(ty.clone());
            cmp = Value::Local(name.clone().unwrap_or_default());
            insts.push(Inst { dest: name, kind: InstKind::AtomicLoad { ty: ty.clone(), ptr: ptr.clone() } });
        }
        insts.push(Inst { dest: self.pair(ty.clone()), kind: InstKind::Cmpxchg { ty, ptr, cmp, new } });
        for _ in 0..self.rng.range(1, 3) {
            let Some((name, ty)) = self.known_pair() else { break };
            let index = self.rng.below(2) as u32;
            let ty = if index == 0 { ty } else { Type::Int(1) };
            insts.push(Inst { dest: self.result(ty), kind: InstKind::ExtractValue { agg: Value::Local(name), index } });
        }
    }
}
