//! Hands uvclang's functions over to the crate `mivolanjy`: the one file that uvclang includes for it, beside its ast.rs
//! (`mod from_ast;`).
//!
//! Everything that ast.rs has is handed over. What no book has becomes an `Other` with a sentence's word for it, and the
//! crate's writer says which instruction it stands in. Names are lent, so the functions outlive what is made of them here.
use crate::ast;
use mivolanjy::ir::{self, Op};
use std::borrow::Cow;

/// What the functions of a translation unit share: its named structs, and the names of those that have a body.
pub fn module(module: &ast::Module) -> ir::Module<'_> {
    let defined = module.functions.iter().filter(|function| !function.is_decl());
    ir::Module {
        structs: module.struct_types.iter().map(|(name, body)| (lent(name), body.as_ref().map(struct_body))).collect(),
        defined: defined.map(|function| lent(&function.name)).collect(),
    }
}

/// A function with its body. Linkage, and whether it takes more arguments than it names, change no line of it.
pub fn function(function: &ast::Function) -> ir::Function<'_> {
    let params = function.params.iter().map(|param| ir::Param { name: maybe_lent(&param.name), ty: type_of(&param.ty) });
    ir::Function {
        name: lent(&function.name),
        ret_ty: type_of(&function.ret_ty),
        params: params.collect(),
        blocks: function.blocks.iter().map(block).collect(),
    }
}

/// The body of a struct, named or not.
pub fn struct_body(body: &ast::StructBody) -> ir::StructBody<'_> {
    ir::StructBody { packed: body.packed, fields: body.fields.iter().map(type_of).collect() }
}

fn lent(name: &str) -> ir::Name<'_> {
    Cow::Borrowed(name)
}

fn maybe_lent(name: &Option<String>) -> Option<ir::Name<'_>> {
    name.as_deref().map(lent)
}

fn block(block: &ast::BasicBlock) -> ir::Block<'_> {
    let insts = block.insts.iter().map(|inst| ir::Inst { dest: maybe_lent(&inst.dest), op: op(&inst.kind) });
    ir::Block { label: lent(&block.label), insts: insts.collect(), term: terminator(&block.term) }
}

fn type_of(ty: &ast::Type) -> ir::Type<'_> {
    match ty {
        ast::Type::Void => ir::Type::Void,
        ast::Type::Int(width) => ir::Type::Int(*width),
        ast::Type::Float => ir::Type::Other(lent("float")),
        ast::Type::Double => ir::Type::Other(lent("double")),
        ast::Type::Ptr => ir::Type::Ptr,
        ast::Type::Array { packed, len, elem } => {
            ir::Type::Array { packed: *packed, len: *len, elem: Box::new(type_of(elem)) }
        }
        ast::Type::NamedStruct(name) => ir::Type::Named(lent(name)),
        ast::Type::Struct(body) => ir::Type::Struct(struct_body(body)),
        ast::Type::Func(_) => ir::Type::Func,
        ast::Type::Label => ir::Type::Label,
        ast::Type::Metadata => ir::Type::Metadata,
    }
}

fn value(value: &ast::Value) -> ir::Value<'_> {
    match value {
        ast::Value::Local(name) => ir::Value::Local(lent(name)),
        ast::Value::Global(name) => ir::Value::Global(lent(name)),
        ast::Value::Int(number) => ir::Value::Int(*number),
        ast::Value::Null => ir::Value::Null,
        ast::Value::Undef => ir::Value::Undef,
        ast::Value::Poison => ir::Value::Poison,
        ast::Value::ZeroInit => ir::Value::ZeroInit,
        ast::Value::Float(_) => ir::Value::Other(lent("a floating-point constant")),
        ast::Value::ConstExpr(_) => ir::Value::Other(lent("a constant expression")),
        ast::Value::CStr(_) => ir::Value::Other(lent("a string constant")),
        ast::Value::Array(_) => ir::Value::Other(lent("an array constant")),
        ast::Value::Struct(_) => ir::Value::Other(lent("a struct constant")),
    }
}

fn typed(typed: &ast::TypedVal) -> ir::TypedVal<'_> {
    ir::TypedVal { ty: type_of(&typed.ty), val: value(&typed.val) }
}

fn op(kind: &ast::InstKind) -> Op<'_> {
    use ast::InstKind::*;
    match kind {
        Bin { op, ty, lhs, rhs } => Op::Bin { op: bin(*op), ty: type_of(ty), lhs: value(lhs), rhs: value(rhs) },
        Conv { op, from_ty, val, to_ty } => conversion(*op, from_ty, val, to_ty),
        ICmp { pred, ty, lhs, rhs } => Op::ICmp { pred: icmp(*pred), ty: type_of(ty), lhs: value(lhs), rhs: value(rhs) },
        Select { cond, ty, tval, fval } => {
            Op::Select { cond: value(cond), ty: type_of(ty), tval: value(tval), fval: value(fval) }
        }
        Load { ty, ptr, align } => Op::Load { ty: type_of(ty), ptr: value(ptr), align: *align },
        Store { ty, val, ptr, align } => Op::Store { ty: type_of(ty), val: value(val), ptr: value(ptr), align: *align },
        Alloca { ty, count, align } => Op::Alloca { ty: type_of(ty), count: count.as_ref().map(typed), align: *align },
        GetElementPtr { base_ty, ptr, indices, .. } => {
            Op::GetElementPtr { base_ty: type_of(base_ty), ptr: value(ptr), indices: indices.iter().map(typed).collect() }
        }
        Phi { ty, incoming } => Op::Phi { ty: type_of(ty), incoming: incoming.iter().map(from_block).collect() },
        Call { ret_ty, callee, args, .. } => {
            Op::Call { ret_ty: type_of(ret_ty), callee: value(callee), args: args.iter().map(typed).collect() }
        }
        Freeze { ty, val } => Op::Freeze { ty: type_of(ty), val: value(val) },
        AtomicLoad { ty, ptr } => Op::AtomicLoad { ty: type_of(ty), ptr: value(ptr) },
        AtomicStore { ty, val, ptr } => Op::AtomicStore { ty: type_of(ty), val: value(val), ptr: value(ptr) },
        Cmpxchg { ty, ptr, cmp, new } => {
            Op::Cmpxchg { ty: type_of(ty), ptr: value(ptr), cmp: value(cmp), new: value(new) }
        }
        ExtractValue { agg, index } => Op::ExtractValue { agg: value(agg), index: *index },
        Fence => Op::Fence,
        FBin { op, .. } => Op::Other(lent(float_word(*op))),
        FNeg { .. } => Op::Other(lent("fneg")),
        FCmp { .. } => Op::Other(lent("fcmp")),
        AtomicRmw { .. } => Op::Other(lent("atomicrmw")),
    }
}

/// One value of a phi.
fn from_block((val, block): &(ast::Value, String)) -> (ir::Value<'_>, ir::Name<'_>) {
    (value(val), lent(block))
}

/// A conversion of integers and pointers; one of floats by its word.
fn conversion<'m>(op: ast::ConvOp, from: &'m ast::Type, val: &'m ast::Value, to: &'m ast::Type) -> Op<'m> {
    let op = match op {
        ast::ConvOp::Trunc => ir::ConvOp::Trunc,
        ast::ConvOp::ZExt => ir::ConvOp::ZExt,
        ast::ConvOp::SExt => ir::ConvOp::SExt,
        ast::ConvOp::PtrToInt => ir::ConvOp::PtrToInt,
        ast::ConvOp::IntToPtr => ir::ConvOp::IntToPtr,
        ast::ConvOp::BitCast => ir::ConvOp::BitCast,
        ast::ConvOp::SIToFP => return Op::Other(lent("sitofp")),
        ast::ConvOp::UIToFP => return Op::Other(lent("uitofp")),
        ast::ConvOp::FPToSI => return Op::Other(lent("fptosi")),
        ast::ConvOp::FPToUI => return Op::Other(lent("fptoui")),
        ast::ConvOp::FPExt => return Op::Other(lent("fpext")),
        ast::ConvOp::FPTrunc => return Op::Other(lent("fptrunc")),
    };
    Op::Conv { op, from_ty: type_of(from), val: value(val), to_ty: type_of(to) }
}

fn terminator(term: &ast::Terminator) -> ir::Terminator<'_> {
    match term {
        ast::Terminator::Ret { val } => ir::Terminator::Ret { val: val.as_ref().map(typed) },
        ast::Terminator::Br { cond, if_true, if_false } => ir::Terminator::Br {
            cond: cond.as_ref().map(value),
            if_true: lent(if_true),
            if_false: maybe_lent(if_false),
        },
        ast::Terminator::Switch { ty, val, default, cases } => ir::Terminator::Switch {
            ty: type_of(ty),
            val: value(val),
            default: lent(default),
            cases: cases.iter().map(|(number, block)| (*number, lent(block))).collect(),
        },
        ast::Terminator::Unreachable => ir::Terminator::Unreachable,
    }
}

fn bin(op: ast::BinOp) -> ir::BinOp {
    match op {
        ast::BinOp::Add => ir::BinOp::Add,
        ast::BinOp::Sub => ir::BinOp::Sub,
        ast::BinOp::Mul => ir::BinOp::Mul,
        ast::BinOp::UDiv => ir::BinOp::UDiv,
        ast::BinOp::SDiv => ir::BinOp::SDiv,
        ast::BinOp::URem => ir::BinOp::URem,
        ast::BinOp::SRem => ir::BinOp::SRem,
        ast::BinOp::And => ir::BinOp::And,
        ast::BinOp::Or => ir::BinOp::Or,
        ast::BinOp::Xor => ir::BinOp::Xor,
        ast::BinOp::Shl => ir::BinOp::Shl,
        ast::BinOp::LShr => ir::BinOp::LShr,
        ast::BinOp::AShr => ir::BinOp::AShr,
    }
}

fn icmp(pred: ast::ICmpPred) -> ir::ICmpPred {
    match pred {
        ast::ICmpPred::Eq => ir::ICmpPred::Eq,
        ast::ICmpPred::Ne => ir::ICmpPred::Ne,
        ast::ICmpPred::Ugt => ir::ICmpPred::Ugt,
        ast::ICmpPred::Uge => ir::ICmpPred::Uge,
        ast::ICmpPred::Ult => ir::ICmpPred::Ult,
        ast::ICmpPred::Ule => ir::ICmpPred::Ule,
        ast::ICmpPred::Sgt => ir::ICmpPred::Sgt,
        ast::ICmpPred::Sge => ir::ICmpPred::Sge,
        ast::ICmpPred::Slt => ir::ICmpPred::Slt,
        ast::ICmpPred::Sle => ir::ICmpPred::Sle,
    }
}

fn float_word(op: ast::FBinOp) -> &'static str {
    match op {
        ast::FBinOp::FAdd => "fadd",
        ast::FBinOp::FSub => "fsub",
        ast::FBinOp::FMul => "fmul",
        ast::FBinOp::FDiv => "fdiv",
        ast::FBinOp::FRem => "frem",
    }
}
