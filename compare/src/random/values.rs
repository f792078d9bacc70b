//! Operands.
use super::Maker;
use crate::book::*;

impl Maker {
    pub fn integer(&mut self) -> i128 {
        let number = match self.rng.below(8) {
            0..=2 => self.rng.below(20) as i64,
            3 => -(self.rng.below(20) as i64),
            4 => 1i64.wrapping_shl(self.rng.below(64) as u32),
            5 => 1i64.wrapping_shl(self.rng.below(64) as u32).wrapping_sub(1),
            6 => 1i64.wrapping_shl(self.rng.below(64) as u32).wrapping_neg(),
            _ => self.rng.next() as i64,
        };
        number as i128
    }

    /// An integer that its width holds, signed or unsigned.
    pub fn integer_of(&mut self, width: u32) -> i128 {
        let number = self.integer();
        let modulus = 1i128 << width;
        let unsigned = number.rem_euclid(modulus);
        let signed = if unsigned >= modulus / 2 { unsigned - modulus } else { unsigned };
        // At 64 a book has one word for both.
        if width == 64 || self.rng.chance(500) { signed } else { unsigned }
    }

    pub fn global(&mut self) -> Value {
        Value::Global(self.rng.pick(&self.globals).clone())
    }

    pub fn constant(&mut self) -> Value {
        match self.rng.below(5) {
            0 => Value::Null,
            1 => Value::Undef,
            2 => Value::Poison,
            3 => Value::ZeroInit,
            _ => self.global(),
        }
    }

    pub fn any_value(&mut self) -> Value {
        match self.rng.below(10) {
            0..=1 => Value::Int(self.integer()),
            2..=3 => self.constant(),
            _ => self.any_local().map_or(Value::Undef, Value::Local),
        }
    }

    pub fn any_local(&mut self) -> Option<String> {
        if self.scope.locals.is_empty() { None } else { Some(self.rng.pick(&self.scope.locals).0.clone()) }
    }

    /// A local of this type.
    pub fn local(&mut self, ty: &Type) -> Option<String> {
        let count = self.scope.locals.len();
        let start = if count == 0 { 0 } else { self.rng.below(count) };
        let (before, after) = self.scope.locals.split_at(start);
        after.iter().chain(before).find(|(_, other)| other == ty).map(|(name, _)| name.clone())
    }

    pub fn value(&mut self, ty: &Type) -> Value {
        if self.loose && self.rng.chance(200) {
            return self.any_value();
        }
        if self.rng.chance(700) {
            if let Some(name) = self.local(ty) {
                return Value::Local(name);
            }
        }
        match ty {
            Type::Int(width) if self.rng.chance(950) => Value::Int(self.integer_of(*width)),
            Type::Ptr => self.constant(),
            _ => self.rng.pick(&[Value::Undef, Value::Poison, Value::ZeroInit]).clone(),
        }
    }

    pub fn typed(&mut self, ty: Type) -> TypedVal {
        let val = self.value(&ty);
        TypedVal { ty, val }
    }
}
