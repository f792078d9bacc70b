//! Calls of random functions: of a function, through a pointer, of a syscall, of memcmp.
use super::Maker;
use crate::two_runs::world::Shape;
use crate::book::*;

impl Maker {
    pub fn call(&mut self) -> Inst {
        match self.rng.below(10) {
            0..=2 => {
                let callee = Value::Global(self.rng.pick(&self.functions).clone());
                self.plain_call(callee)
            }
            3..=4 => {
                let callee = self.local(&Type::Ptr);
                let callee = callee.map_or(Value::Global(self.own.clone()), Value::Local);
                self.plain_call(callee)
            }
            5..=8 => self.syscall(),
            _ => self.compare_bytes(),
        }
    }

    fn plain_call(&mut self, callee: Value) -> Inst {
        let args = self.rng.below(4);
        let replies = self.rng.chance(700);
        self.made(callee, args, replies)
    }

    /// With the name's own shape, but for a few.
    fn syscall(&mut self) -> Inst {
        let printed: Vec<String> = self.shapes.keys().cloned().collect();
        let printed = self.rng.pick(&printed).clone();
        let Shape { mut args, mut replies } = self.shapes[&printed];
        if self.rng.below(1000) < 3 * self.risk {
            args = self.rng.below(4);
        }
        if self.rng.below(1000) < 3 * self.risk {
            replies = !replies;
        }
        self.made(Value::Global(format!("__uvm_{printed}")), args, replies)
    }

    fn compare_bytes(&mut self) -> Inst {
        let name = self.rng.pick(&["bcmp", "memcmp", "__uvm_memcmp"]).to_string();
        let name = self.note(name);
        let args = vec![self.typed(Type::Ptr), self.typed(Type::Ptr), self.typed(Type::Int(64))];
        let ret_ty = Type::Int(32);
        let dest = if self.rng.chance(900) { self.result(ret_ty.clone()) } else { None };
        Inst { dest, kind: InstKind::Call { ret_ty, fn_ty: None, callee: Value::Global(name), args } }
    }

    /// A call with arguments of any types, and a reply that is now and then not kept.
    fn made(&mut self, callee: Value, args: usize, replies: bool) -> Inst {
        let args = (0..args)
            .map(|_| {
                let ty = self.scalar();
                self.typed(ty)
            })
            .collect();
        let ret_ty = if replies { self.scalar() } else { Type::Void };
        let dest = if replies && self.rng.chance(900) { self.result(ret_ty.clone()) } else { None };
        Inst { dest, kind: InstKind::Call { ret_ty, fn_ty: None, callee, args } }
    }
}
