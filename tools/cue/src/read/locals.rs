//! The names of one function's parameters, blocks and results. Values without a name get numbers, in one sequence, and each
//! is used at the type that it has.
use super::spelling::Spelling;
use super::{out, Fault, Spot, Trouble};
use mivolanjy::ir::{Name, Op, StructBody, Type};
use std::collections::HashMap;

#[derive(Default)]
pub struct Locals<'a> {
    next: u64,
    /// What each name is, a block being a label. None: that depends on what stands elsewhere.
    given: HashMap<Name<'a>, Option<Sort>>,
    uses: Vec<(Name<'a>, Sort, Spot)>,
    /// The globals that the function uses, and where.
    pub globals: Vec<(Name<'a>, Spot)>,
}

/// What a type is, as far as a local may have it.
#[derive(Clone, Copy, Debug, PartialEq, Eq)]
pub enum Sort {
    Int(u32),
    Ptr,
    Label,
    /// A cmpxchg's result, by the width of its first part: 0 for a pointer.
    Pair(u32),
    Other,
}

impl Sort {
    pub fn of(ty: &Type) -> Sort {
        match ty {
            Type::Int(width) => Sort::Int(*width),
            Type::Ptr => Sort::Ptr,
            Type::Label => Sort::Label,
            Type::Struct(StructBody { packed: false, fields }) => match fields[..] {
                [Type::Int(width), Type::Int(1)] => Sort::Pair(width),
                [Type::Ptr, Type::Int(1)] => Sort::Pair(0),
                _ => Sort::Other,
            },
            _ => Sort::Other,
        }
    }
}

impl<'a> Locals<'a> {
    /// The next number, as a name.
    pub fn unnamed(&mut self, ty: Option<Sort>) -> Name<'a> {
        let name = Name::from(self.next.to_string());
        self.next += 1;
        self.given.insert(name.clone(), ty);
        name
    }

    /// A name that is given here. A number may be left out of the sequence, and none comes twice.
    pub fn named(&mut self, spelling: Spelling<'a>, spot: Spot, ty: Option<Sort>) -> Result<Name<'a>, Trouble> {
        if let Some(number) = spelling.number() {
            if u64::from(number) < self.next {
                return Err(Fault::new(spot, format!("a number below {}, which is next", self.next)).into());
            }
            self.next = u64::from(number) + 1;
        }
        let name = spelling.name().or_else(|reason| out(spot, reason))?;
        if self.given.insert(name.clone(), ty).is_some() {
            return Err(Fault::new(spot, format!("`{}` is given twice in one function", spelling.shown())).into());
        }
        Ok(name)
    }

    /// A name that is used at a type.
    pub fn used(&mut self, name: &Name<'a>, ty: &Type<'a>, spot: Spot) {
        self.uses.push((name.clone(), Sort::of(ty), spot));
    }

    /// Whether each name that is given was used at its type. Of others the translator says that they are unknown.
    pub fn agree(&self) -> Result<(), Fault> {
        for (name, ty, spot) in &self.uses {
            match self.given.get(name) {
                Some(Some(given)) if given != ty => {
                    return Err(Fault::new(*spot, format!("`%{name}` is used at another type than its own")));
                }
                _ => {}
            }
        }
        Ok(())
    }
}

/// Whether an instruction has a result, and so a name or a number: what that is, if it can be told here.
pub fn result(op: &Op) -> Option<Option<Sort>> {
    let ty = match op {
        Op::Store { .. } | Op::AtomicStore { .. } | Op::Fence => return None,
        Op::Call { ret_ty: Type::Void, .. } => return None,
        Op::ExtractValue { .. } | Op::Other(_) => return Some(None),
        Op::ICmp { .. } => return Some(Some(Sort::Int(1))),
        Op::Alloca { .. } | Op::GetElementPtr { .. } => return Some(Some(Sort::Ptr)),
        Op::Cmpxchg { ty, .. } => return Some(Some(pair(ty))),
        Op::Call { ret_ty, .. } => ret_ty,
        Op::Conv { to_ty, .. } => to_ty,
        Op::Bin { ty, .. } | Op::Select { ty, .. } | Op::Load { ty, .. } => ty,
        Op::Phi { ty, .. } | Op::Freeze { ty, .. } | Op::AtomicLoad { ty, .. } => ty,
    };
    Some(Some(Sort::of(ty)))
}

/// The result of a cmpxchg on a type.
fn pair(ty: &Type) -> Sort {
    match ty {
        Type::Int(width) => Sort::Pair(*width),
        Type::Ptr => Sort::Pair(0),
        _ => Sort::Other,
    }
}

/// Whether a type is one of values with parts.
pub fn has_parts(ty: &Type) -> bool {
    matches!(ty, Type::Named(_) | Type::Struct(_) | Type::Array { .. })
}
