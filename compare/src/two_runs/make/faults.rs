//! Instructions that a run must stop at. The translator accepts every one.
use super::Maker;
use crate::book::*;

impl Maker {
    /// An instruction that is ill-formed, or whose value is an aggregate.
    pub fn fault(&mut self) -> Inst {
        match self.rng.below(6) {
            0 => {
                let callee = Value::Global(self.own.clone());
                self.faulty_call(Type::Void, callee)
            }
            1 => {
                let callee = Value::Global(self.own.clone());
                let ty = self.small_aggregate();
                self.faulty_call(ty, callee)
            }
            2 => {
                let ty = self.small_aggregate();
                let ptr = self.value(&Type::Ptr);
                Inst { dest: self.result(Type::Void), kind: InstKind::Load { ty, ptr, align: None } }
            }
            3 => {
                let (lhs, rhs) = (self.value(&Type::Ptr), self.value(&Type::Ptr));
                Inst { dest: self.result(Type::Ptr), kind: InstKind::Bin { op: BinOp::Add, ty: Type::Ptr, lhs, rhs } }
            }
            4 => {
                let ty = self.int_type();
                let val = self.value(&ty);
                let (from_ty, to_ty) = (ty.clone(), ty.clone());
                Inst { dest: self.result(ty), kind: InstKind::Conv { op: ConvOp::Trunc, from_ty, val, to_ty } }
            }
            // Behind another instruction, most of the time.
            _ => Inst { dest: self.result(Type::Int(8)), kind: InstKind::Phi { ty: Type::Int(8), incoming: vec![] } },
        }
    }

    fn faulty_call(&mut self, ret_ty: Type, callee: Value) -> Inst {
        let kind = InstKind::Call { ret_ty, fn_ty: None, callee, args: vec![] };
        Inst { dest: self.result(Type::Void), kind }
    }

    fn small_aggregate(&mut self) -> Type {
        if self.rng.chance(500) {
            Type::Array { packed: false, len: 4, elem: Box::new(Type::Int(8)) }
        } else {
            Type::Struct(StructBody { packed: self.rng.chance(500), fields: vec![Type::Int(16)] })
        }
    }

    /// The function's result: seldom one that it can't have.
    pub fn result_type(&mut self) -> Type {
        match self.rng.below(20) {
            _ if self.rng.below(2000) < self.risk => self.small_aggregate(),
            0..=2 => Type::Void,
            _ => self.scalar(),
        }
    }

    /// A parameter's type: seldom one whose value can't be read.
    pub fn param_type(&mut self) -> Type {
        match self.rng.below(20) {
            _ if self.rng.below(500) < self.risk => self.small_aggregate(),
            0..=5 => Type::Ptr,
            _ => self.scalar(),
        }
    }
}
