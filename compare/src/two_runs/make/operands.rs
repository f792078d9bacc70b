//! Operands of random functions.
use super::{Local, Maker};
use crate::book::*;

impl Maker {
    fn integer(&mut self) -> i128 {
        let power = |place: usize| 1i64.wrapping_shl(place as u32);
        let number = match self.rng.below(16) {
            0..=4 => self.rng.below(10) as i64,
            5..=8 => -(self.rng.range(1, 10) as i64),
            9..=10 => power(self.rng.below(64)),
            11..=12 => power(self.rng.below(64)).wrapping_sub(1),
            _ => self.rng.next() as i64,
        };
        number as i128
    }

    /// An integer that its width holds, signed or unsigned; at 64 a book has one word for both.
    pub fn integer_of(&mut self, width: u32) -> i128 {
        let modulus = 1i128 << width;
        let unsigned = self.integer().rem_euclid(modulus);
        let negative = unsigned >= modulus / 2 && (width == 64 || self.rng.chance(500));
        if negative { unsigned - modulus } else { unsigned }
    }

    fn is_set(&self, local: &Local) -> bool {
        local.block.is_none_or(|block| self.set.contains(&block))
    }

    /// A local of this type that is set here, the latest ones sooner.
    pub fn local(&mut self, ty: &Type) -> Option<String> {
        let known: Vec<&Local> = self.locals.iter().filter(|local| local.ty == *ty && self.is_set(local)).collect();
        let count = known.len();
        if count == 0 {
            return None;
        }
        let place = self.rng.below(count).max(self.rng.below(count));
        Some(known[place].name.clone())
    }

    /// The result of a cmpxchg that is set here.
    pub fn known_pair(&mut self) -> Option<(String, Type)> {
        let known: Vec<&Local> = self.pairs.iter().filter(|pair| self.is_set(pair)).collect();
        if known.is_empty() {
            return None;
        }
        let pair = *self.rng.pick(&known);
        Some((pair.name.clone(), pair.ty.clone()))
    }

    pub fn value(&mut self, ty: &Type) -> Value {
        if self.rng.below(1000) < self.risk {
            return self.wrong(ty);
        }
        if self.rng.chance(750) {
            if let Some(name) = self.local(ty) {
                return Value::Local(name);
            }
        }
        match ty {
            Type::Int(width) if self.rng.chance(950) => Value::Int(self.integer_of(*width)),
            Type::Ptr if self.rng.chance(800) => Value::Global(self.rng.pick(&self.globals).clone()),
            Type::Ptr => Value::Null,
            _ => self.rng.pick(&[Value::Undef, Value::Poison, Value::ZeroInit]).clone(),
        }
    }

    /// A local that may be unset or of another type, a cmpxchg's result, an integer that its width does not hold.
    fn wrong(&mut self, ty: &Type) -> Value {
        match self.rng.below(6) {
            0 if !self.pairs.is_empty() => Value::Local(self.rng.pick(&self.pairs).name.clone()),
            1 if *ty != Type::Int(64) => Value::Int(1 << 62 | 5),
            _ if self.locals.is_empty() => Value::Poison,
            _ => Value::Local(self.rng.pick(&self.locals).name.clone()),
        }
    }

    pub fn typed(&mut self, ty: Type) -> TypedVal {
        let val = self.value(&ty);
        TypedVal { ty, val }
    }
}
