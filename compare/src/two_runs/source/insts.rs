//! What an instruction does in the source run.
use super::{fixed_count, integer_width, result_width, width_of, Halt, Named, Source, Stop};
use super::values;
use crate::two_runs::world::{Call, Target};
use crate::book::*;

impl<'a> Source<'a> {
    pub(super) fn inst(&mut self, inst: &'a Inst) -> Result<(), Halt> {
        let dest = &inst.dest;
        match &inst.kind {
            InstKind::Store { ty, val, ptr, .. } | InstKind::AtomicStore { ty, val, ptr } => self.store(ty, val, ptr),
            InstKind::Cmpxchg { ty, ptr, cmp, new } => self.cmpxchg(dest, ty, ptr, cmp, new),
            InstKind::ExtractValue { agg, index } => self.extract(dest, agg, *index),
            InstKind::Call { ret_ty, callee, args, .. } => self.call(dest, ret_ty, callee, args),
            InstKind::Alloca { ty, count, align } => self.place(dest, ty, count, *align),
            InstKind::Fence => Ok(()),
            kind => {
                let (width, value) = self.scalar(kind)?;
                self.put(dest, Named::One { width, value });
                Ok(())
            }
        }
    }

    /// The width and the value of an instruction that gives one.
    fn scalar(&mut self, kind: &'a InstKind) -> Result<(u32, u64), Halt> {
        match kind {
            InstKind::Bin { op, ty, lhs, rhs } => {
                let width = integer_width(ty)?;
                let (x, y) = (self.operand(width, lhs)?, self.operand(width, rhs)?);
                let value = values::bin(*op, width, x, y)?;
                self.meet(arithmetic(width));
                Ok((width, value))
            }
            InstKind::ICmp { pred, ty, lhs, rhs } => {
                let width = width_of(ty)?;
                let (x, y) = (self.operand(width, lhs)?, self.operand(width, rhs)?);
                Ok((1, values::icmp(*pred, width, x, y) as u64))
            }
            InstKind::Conv { op, from_ty, val, to_ty } => {
                let (from, to) = (width_of(from_ty)?, width_of(to_ty)?);
                Ok((to, values::conv(*op, from, to, self.operand(from, val)?)?))
            }
            // Only the side taken is read.
            InstKind::Select { cond, ty, tval, fval } => {
                let width = width_of(ty)?;
                let taken = if self.operand(1, cond)? == 1 { tval } else { fval };
                Ok((width, self.operand(width, taken)?))
            }
            InstKind::Freeze { ty, val } => {
                let width = width_of(ty)?;
                Ok((width, self.operand(width, val)?))
            }
            InstKind::Load { ty, ptr, .. } | InstKind::AtomicLoad { ty, ptr } => self.load(ty, ptr),
            InstKind::GetElementPtr { base_ty, ptr, indices, .. } => Ok((64, self.element(base_ty, ptr, indices)?)),
            // A phi behind another instruction, too.
            _ => Err(Stop::IllFormed.into()),
        }
    }

    fn touch(&mut self, address: u64, bytes: u64) {
        if address.checked_add(bytes).is_none() {
            self.meet("access that wraps");
        }
        self.touched.extend((0..bytes).map(|place| address.wrapping_add(place)));
    }

    fn load(&mut self, ty: &Type, ptr: &Value) -> Result<(u32, u64), Halt> {
        let width = width_of(ty)?;
        let bytes = self.layout.size_of(ty);
        let address = self.operand(64, ptr)?;
        let value = self.memory.read(address, bytes);
        self.touch(address, bytes);
        if width < 64 && value >> width != 0 {
            return Err(Stop::LoadRange.into());
        }
        Ok((width, value))
    }

    fn store(&mut self, ty: &Type, val: &Value, ptr: &Value) -> Result<(), Halt> {
        let width = width_of(ty)?;
        let bytes = self.layout.size_of(ty);
        let (address, value) = (self.operand(64, ptr)?, self.operand(width, val)?);
        self.memory.write(address, bytes, value);
        self.touch(address, bytes);
        Ok(())
    }

    fn cmpxchg(&mut self, dest: &'a Option<String>, ty: &Type, ptr: &Value, cmp: &Value, new: &Value) -> Result<(), Halt> {
        let width = width_of(ty)?;
        let bytes = self.layout.size_of(ty);
        let address = self.operand(64, ptr)?;
        let (cmp, new) = (self.operand(width, cmp)?, self.operand(width, new)?);
        let found = self.memory.read(address, bytes);
        self.touch(address, bytes);
        if found == cmp {
            self.memory.write(address, bytes, new);
        }
        self.meet(if found == cmp { "cmpxchg that stores" } else { "cmpxchg that does not" });
        self.put(dest, Named::Two { width, found, success: found == cmp });
        Ok(())
    }

    fn extract(&mut self, dest: &'a Option<String>, agg: &Value, index: u32) -> Result<(), Halt> {
        let Value::Local(name) = agg else { return Err(Stop::IllFormed.into()) };
        let named = match (self.env.get(name.as_str()).ok_or(Stop::Unset)?, index) {
            (Named::Two { width, found, .. }, 0) => Named::One { width: *width, value: *found },
            (Named::Two { success, .. }, 1) => Named::One { width: 1, value: *success as u64 },
            _ => return Err(Stop::IllFormed.into()),
        };
        self.put(dest, named);
        Ok(())
    }

    fn place(&mut self, dest: &'a Option<String>, ty: &Type, count: &Option<TypedVal>, align: Option<u64>) -> Result<(), Halt> {
        let name = dest.as_deref().ok_or(Stop::IllFormed)?;
        let address = if fixed_count(count).is_some() {
            if !self.framed {
                return Err(Stop::PlaceEmpty.into());
            }
            if self.env.contains_key(name) {
                return Err(Stop::PlaceTwice.into());
            }
            self.meet("fixed place");
            self.input.sp.wrapping_add(*self.places.get(name).ok_or(Stop::IllFormed)?)
        } else {
            self.meet("varying place");
            self.varying_place(ty, count, align)?
        };
        self.put(dest, Named::One { width: 64, value: address });
        Ok(())
    }

    /// The next multiple of the alignment, at least 8; the stack pointer moves behind it.
    fn varying_place(&mut self, ty: &Type, count: &Option<TypedVal>, align: Option<u64>) -> Result<u64, Halt> {
        let count = match count {
            None => 1,
            Some(count) => self.operand(width_of(&count.ty)?, &count.val)?,
        };
        let align = align.unwrap_or_else(|| self.layout.align_of(ty)).max(8);
        let address = self.sp.wrapping_add(align - 1) / align * align;
        self.sp = address.wrapping_add(count.wrapping_mul(self.layout.size_of(ty)));
        Ok(address)
    }

    /// The address that a getelementptr gives; sums wrap.
    fn element(&mut self, base_ty: &Type, ptr: &Value, indices: &[TypedVal]) -> Result<u64, Halt> {
        let mut address = self.operand(64, ptr)?;
        let mut ty = base_ty.clone();
        for (place, index) in indices.iter().enumerate() {
            let (offset, part) = if place == 0 { (self.over_elements(&ty, index)?, ty) } else { self.into_part(&ty, index)? };
            address = address.wrapping_add(offset);
            ty = part;
        }
        Ok(address)
    }

    fn over_elements(&mut self, ty: &Type, index: &TypedVal) -> Result<u64, Halt> {
        let width = integer_width(&index.ty)?;
        let number = match &index.val {
            Value::Int(number) => values::index(width, *number)?,
            value => values::signed(width, self.operand(width, value)?),
        };
        self.meet(match (&index.val, number < 0) {
            (Value::Int(_), _) => "constant index",
            (_, false) => "varying index",
            (_, true) => "negative varying index",
        });
        Ok((number as u64).wrapping_mul(self.layout.size_of(ty)))
    }

    fn into_part(&mut self, ty: &Type, index: &TypedVal) -> Result<(u64, Type), Halt> {
        let body = match ty {
            Type::Array { elem, .. } => return Ok((self.over_elements(elem, index)?, (**elem).clone())),
            Type::Struct(body) => body,
            Type::NamedStruct(name) => self.layout.resolve(name),
            _ => return Err(Stop::IllFormed.into()),
        };
        let Value::Int(number) = &index.val else { return Err(Stop::IllFormed.into()) };
        let field = values::index(integer_width(&index.ty)?, *number)? as usize;
        let part = body.fields.get(field).ok_or(Stop::IllFormed)?;
        self.meet("field");
        Ok((self.layout.field_offset(body, field), part.clone()))
    }

    fn call(&mut self, dest: &'a Option<String>, ret_ty: &Type, callee: &Value, args: &[TypedVal]) -> Result<(), Halt> {
        let mut cells = vec![];
        for arg in args {
            cells.push(self.operand(width_of(&arg.ty)?, &arg.val)?);
        }
        let target = match callee {
            Value::Global(name) => listed_as(name),
            Value::Local(_) => Target::Address(self.operand(64, callee)?),
            _ => return Err(Stop::IllFormed.into()),
        };
        let result = result_width(ret_ty)?;
        if let Target::Syscall(printed) = &target {
            let shape = self.input.shape(printed).ok_or(Stop::SyscallShape)?;
            if shape.args != args.len() || shape.replies != result.is_some() {
                return Err(Stop::SyscallShape.into());
            }
        }
        self.meet(sort_of_call(&target, result.is_some()));
        let position = self.calls.len();
        let (cell, memory) = self.input.reply(position);
        self.memory = memory.clone();
        self.calls.push(Call { target, args: cells });
        match result {
            None if dest.is_some() => Err(Stop::IllFormed.into()),
            None => Ok(()),
            Some(width) if width < 64 && cell >> width != 0 => Err(Halt::Unfit { position, width }),
            Some(width) => {
                self.put(dest, Named::One { width, value: cell });
                Ok(())
            }
        }
    }
}

/// bcmp and memcmp are listed as syscall memcmp, `__uvm_` names without the prefix.
fn listed_as(name: &str) -> Target {
    match name.strip_prefix("__uvm_") {
        Some(printed) => Target::Syscall(printed.to_string()),
        None if name == "bcmp" || name == "memcmp" => Target::Syscall("memcmp".to_string()),
        None => Target::Function(name.to_string()),
    }
}

fn sort_of_call(target: &Target, replies: bool) -> &'static str {
    match (target, replies) {
        (Target::Function(_), true) => "call of a function",
        (Target::Function(_), false) => "void call of a function",
        (Target::Address(_), true) => "call through a pointer",
        (Target::Address(_), false) => "void call through a pointer",
        (Target::Syscall(printed), _) if printed == "memcmp" => "memcmp",
        (Target::Syscall(_), true) => "syscall with a reply",
        (Target::Syscall(_), false) => "syscall without a reply",
    }
}

fn arithmetic(width: u32) -> &'static str {
    match width {
        1 => "arithmetic at 1",
        8 => "arithmetic at 8",
        16 => "arithmetic at 16",
        32 => "arithmetic at 32",
        _ => "arithmetic at 64",
    }
}
