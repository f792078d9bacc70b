//! Why a function stands in no book, by our own reading of document 01 over the published ast.rs: what the writer of
//! bindings/rust should turn down.
use crate::book::*;
use crate::check;
use crate::hash::Set;
use crate::oracle::is_reserved;
use crate::visit;

/// The first fault that is found; none where the function can stand in a book. Calls that do nothing are fences by now.
/// Nothing is changed.
pub fn fault(structs: &[(String, Option<StructBody>)], function: &mut Function) -> Option<&'static str> {
    let mut reading = Reading::default();
    reading.name(&function.name);
    reading.ty(&function.ret_ty, 1);
    for param in &function.params {
        param.name.iter().for_each(|name| reading.name(name));
        reading.ty(&param.ty, 1);
    }
    visit::each_label(function, &mut |label| reading.name(label));
    visit::each_type(function, &mut |ty| reading.ty(ty, 1));
    visit::each_value(function, &mut |value| reading.value(value));
    visit::each_inst(function, &mut |inst| reading.inst(inst));
    for block in &function.blocks {
        if let Terminator::Switch { cases, .. } = &block.term {
            cases.iter().for_each(|(number, _)| reading.integer(*number));
        }
    }
    reading.structs(structs);
    reading.fault
}

#[derive(Default)]
struct Reading {
    fault: Option<&'static str>,
    /// Structs that types name, and those of them whose bodies are to be read.
    named: Set<String>,
    unread: Vec<String>,
}

impl Reading {
    fn must(&mut self, holds: bool, fault: &'static str) {
        if !holds && self.fault.is_none() {
            self.fault = Some(fault);
        }
    }

    fn name(&mut self, name: &str) {
        self.must(check::name(name.as_bytes()).is_some(), "a name");
    }

    fn ty(&mut self, ty: &Type, level: u32) {
        self.must(level <= check::MOST_LEVELS, "levels");
        match ty {
            Type::Float | Type::Double => self.must(false, "a float type"),
            Type::Int(width) => self.must(WIDTHS.contains(width), "a width"),
            Type::Array { elem, .. } => self.ty(elem, level + 1),
            Type::Struct(body) => body.fields.iter().for_each(|field| self.ty(field, level + 1)),
            Type::NamedStruct(name) => {
                self.name(name);
                if self.named.insert(name.clone()) {
                    self.unread.push(name.clone());
                }
            }
            _ => {}
        }
    }

    /// The bodies of the structs that are named, and of those that these name.
    fn structs(&mut self, structs: &[(String, Option<StructBody>)]) {
        while let Some(name) = self.unread.pop() {
            let body = structs.iter().find(|(other, _)| *other == name).and_then(|(_, body)| body.as_ref());
            body.into_iter().flat_map(|body| &body.fields).for_each(|field| self.ty(field, 2));
        }
    }

    fn value(&mut self, value: &Value) {
        match value {
            Value::Local(name) | Value::Global(name) => self.name(name),
            Value::Int(number) => self.integer(*number),
            Value::Null | Value::Undef | Value::Poison | Value::ZeroInit => {}
            _ => self.must(false, "another value"),
        }
    }

    fn integer(&mut self, number: i128) {
        self.must(i64::try_from(number).is_ok() || u64::try_from(number).is_ok(), "an integer");
    }

    fn align(&mut self, align: Option<u64>) {
        self.must(align.is_none_or(|align| (0..=12).any(|power| align == 1 << power)), "an align");
    }

    fn inst(&mut self, inst: &Inst) {
        inst.dest.iter().for_each(|name| self.name(name));
        match &inst.kind {
            InstKind::FBin { .. } | InstKind::FNeg { .. } | InstKind::FCmp { .. } => self.must(false, "a float instruction"),
            InstKind::Conv { op, .. } => self.must(CONV_OPS.contains(op), "a float instruction"),
            InstKind::AtomicRmw { .. } => self.must(false, "atomicrmw"),
            InstKind::Load { align, .. } | InstKind::Store { align, .. } | InstKind::Alloca { align, .. } => {
                self.align(*align);
            }
            InstKind::GetElementPtr { indices, .. } => {
                self.must(indices.len() <= check::MOST_INDICES, "indices");
                for index in indices {
                    let Value::Int(number) = index.val else { continue };
                    self.must((-(1 << 31)..1 << 31).contains(&number), "an index");
                }
            }
            InstKind::Call { callee: Value::Global(name), .. } => {
                self.must(!name.starts_with("llvm."), "an intrinsic");
                self.must(!is_reserved(name), "a floating-point function");
            }
            _ => {}
        }
    }
}
