//! Parts that no book has, and such that it just has, put into random functions.
use super::names;
use crate::book::*;
use crate::random::leading_phis;
use crate::rng::Rng;
use crate::visit;
use uvclang::ast::{ConstExpr, FBinOp, FCmpPred, RmwOp};

/// Changes the function of this place, or what it uses.
type Part = fn(&mut Rng, &mut Book, usize);

const PARTS: [Part; 13] = [
    put_type, put_type, put_field, put_value, put_value, put_instruction, put_call, put_call, put_gep, put_align, put_case,
    names::put, names::put,
];

/// Intrinsics that do nothing.
const HINTS: [&str; 7] = [
    "llvm.lifetime.start.p0", "llvm.lifetime.end.p0", "llvm.assume", "llvm.dbg.value", "llvm.dbg.declare", "llvm.donothing",
    "llvm.experimental.noalias.scope.decl",
];

/// Other intrinsics, floating-point functions, and names that nearly are one of these.
const OTHERS: [&str; 18] = [
    "llvm.memcpy.p0.p0.i64", "llvm.smax.i32", "llvm.abs.i32", "llvm.trap", "llvm.va_start.p0", "llvm.umul.with.overflow.i32",
    "llvm.bswap.i32", "llvm.assume.x", "llvm.donothing.x", "llvm.lifetime", "llvm.dbg", "llvm", "llvmx", "sin", "powf",
    "exp2f", "sinff", "copysig",
];

/// Six modules of ten get some.
pub fn put(rng: &mut Rng, book: &mut Book) {
    if book.functions.is_empty() || rng.chance(400) {
        return;
    }
    for _ in 0..rng.range(1, 4) {
        let place = rng.below(book.functions.len());
        rng.pick(&PARTS)(rng, book, place);
    }
}

/// Whether it is a call of an intrinsic that does nothing, which the writer leaves out; if so, whether the Rust knows it.
pub fn hint(inst: &Inst) -> Option<bool> {
    match &inst.kind {
        InstKind::Call { callee: Value::Global(name), .. } if inst.dest.is_none() => {
            let known = name.starts_with("llvm.lifetime.") || name == "llvm.assume";
            let others = ["llvm.donothing", "llvm.experimental.noalias.scope.decl"];
            (known || name.starts_with("llvm.dbg.") || others.contains(&name.as_str())).then_some(known)
        }
        _ => None,
    }
}

/// An array of arrays of so many levels.
fn deep(levels: usize) -> Type {
    (1..levels).fold(Type::Int(8), |elem, _| Type::Array { packed: false, len: 1, elem: Box::new(elem) })
}

fn odd_type(rng: &mut Rng) -> Type {
    let odd = match rng.below(8) {
        0..=1 => Type::Float,
        2..=3 => Type::Double,
        4..=6 => Type::Int(*rng.pick(&[2, 7, 24, 33, 63, 65, 128])),
        _ => return deep(rng.range(63, 66)),
    };
    match rng.below(4) {
        0 => Type::Array { packed: false, len: 2, elem: Box::new(odd) },
        1 => Type::Struct(StructBody { packed: rng.chance(500), fields: vec![Type::Ptr, odd] }),
        _ => odd,
    }
}

fn put_type(rng: &mut Rng, book: &mut Book, place: usize) {
    let (ty, function) = (odd_type(rng), &mut book.functions[place]);
    match rng.below(6) {
        0 => function.ret_ty = ty,
        1 => function.params.push(Param { ty, name: None }),
        _ => visit::one_of(rng, function, visit::each_type, |old| *old = ty.clone()),
    }
}

/// In a named struct, which the function uses from now on, or its parts.
fn put_field(rng: &mut Rng, book: &mut Book, place: usize) {
    let ty = odd_type(rng);
    let mut bodies: Vec<_> = book.structs.iter_mut().filter_map(|(name, body)| Some((name, body.as_mut()?))).collect();
    if bodies.is_empty() {
        return;
    }
    let chosen = rng.below(bodies.len());
    let (name, body) = &mut bodies[chosen];
    let at = rng.below(body.fields.len() + 1);
    body.fields.insert(at, ty);
    let used = Type::NamedStruct(name.clone());
    visit::one_of(rng, &mut book.functions[place], visit::each_type, |old| *old = used.clone());
}

fn odd_value(rng: &mut Rng) -> Value {
    let typed = |ty, val| TypedVal { ty, val };
    let global = || typed(Type::Ptr, Value::Global("g".to_string()));
    let constant = |constant| Value::ConstExpr(Box::new(constant));
    match rng.below(10) {
        0 => Value::Float(1.5),
        1 => {
            let indices = vec![typed(Type::Int(64), Value::Int(3))];
            constant(ConstExpr::GetElementPtr { inbounds: true, base_ty: Type::Int(32), base: global(), indices })
        }
        2 => constant(ConstExpr::Conv { op: ConvOp::PtrToInt, val: global(), to: Type::Int(32) }),
        3 => constant(ConstExpr::Bin { op: BinOp::Add, lhs: global(), rhs: typed(Type::Int(64), Value::Int(1)) }),
        4 => Value::Array(vec![]),
        5 => Value::Struct(vec![]),
        6..=7 => Value::Int(*rng.pick(&[1 << 64, (1 << 64) - 1, -(1 << 63), -(1 << 63) - 1, i128::MAX, i128::MIN])),
        _ => Value::Global(rng.pick(&["llvm.x", "sin", "powf"]).to_string()),
    }
}

fn put_value(rng: &mut Rng, book: &mut Book, place: usize) {
    let value = odd_value(rng);
    visit::one_of(rng, &mut book.functions[place], visit::each_value, |old| *old = value.clone());
}

/// Puts an instruction somewhere, half of the time behind the leading phis.
fn insert(rng: &mut Rng, function: &mut Function, named: bool, kind: InstKind) {
    let dest = named.then(|| format!("odd.{}", rng.below(1000)));
    let place = rng.below(function.blocks.len());
    let insts = &mut function.blocks[place].insts;
    let first = if rng.chance(500) { leading_phis(insts) } else { 0 };
    insts.insert(rng.range(first, insts.len()), Inst { dest, kind });
}

fn put_instruction(rng: &mut Rng, book: &mut Book, place: usize) {
    let ty = if rng.chance(500) { Type::Float } else { Type::Double };
    let (lhs, rhs) = (Value::Float(1.5), Value::Float(-2.25));
    let kind = match rng.below(8) {
        0 => InstKind::FBin { op: FBinOp::FMul, ty, lhs, rhs },
        1 => InstKind::FNeg { ty, val: lhs },
        2 => InstKind::FCmp { pred: FCmpPred::Olt, ty, lhs, rhs },
        3 => InstKind::Conv { op: ConvOp::SIToFP, from_ty: Type::Int(32), val: Value::Int(-3), to_ty: ty },
        4 => InstKind::Conv { op: ConvOp::FPToUI, from_ty: ty, val: lhs, to_ty: Type::Int(64) },
        5 => InstKind::Conv { op: ConvOp::FPExt, from_ty: Type::Float, val: lhs, to_ty: Type::Double },
        _ => InstKind::AtomicRmw { op: RmwOp::Nand, ty: Type::Int(64), ptr: Value::Null, val: Value::Int(1) },
    };
    insert(rng, &mut book.functions[place], true, kind);
}

fn put_call(rng: &mut Rng, book: &mut Book, place: usize) {
    let hint = rng.chance(500);
    let name = if hint { *rng.pick(&HINTS) } else { *rng.pick(&OTHERS) };
    let args = (0..rng.below(4)).map(|_| TypedVal { ty: Type::Int(64), val: Value::Int(rng.below(9) as i128) }).collect();
    let named = rng.chance(if hint { 100 } else { 500 });
    let kind = InstKind::Call { ret_ty: Type::Int(32), fn_ty: None, callee: Value::Global(name.to_string()), args };
    insert(rng, &mut book.functions[place], named, kind);
}

/// Around 32 indices, and around the bounds of an integer one.
fn put_gep(rng: &mut Rng, book: &mut Book, place: usize) {
    let count = *rng.pick(&[1, 2, 31, 32, 33, 40]);
    let mut indices: Vec<TypedVal> = (0..count).map(|_| TypedVal { ty: Type::Int(32), val: Value::Int(0) }).collect();
    if count <= 32 {
        let numbers = [1 << 31, (1 << 31) - 1, -(1 << 31), -(1 << 31) - 1, (1 << 32) - 1, (1 << 64) - 1];
        indices[rng.below(count)].val = Value::Int(*rng.pick(&numbers));
    }
    let kind = InstKind::GetElementPtr { inbounds: false, base_ty: deep(count), ptr: Value::Null, indices };
    insert(rng, &mut book.functions[place], true, kind);
}

fn put_align(rng: &mut Rng, book: &mut Book, place: usize) {
    let align = Some(*rng.pick(&[0, 1, 3, 12, 4096, 4097, 8192, 1 << 63, u64::MAX]));
    let (ty, ptr) = (Type::Int(32), Value::Null);
    let count = Some(TypedVal { ty: Type::Int(64), val: Value::Undef });
    let (named, kind) = match rng.below(3) {
        0 => (true, InstKind::Load { ty, ptr, align }),
        1 => (false, InstKind::Store { ty, val: Value::Int(5), ptr, align }),
        _ => (true, InstKind::Alloca { ty, count, align }),
    };
    insert(rng, &mut book.functions[place], named, kind);
}

/// A switch with a case around the bounds of 64 bits.
fn put_case(rng: &mut Rng, book: &mut Book, place: usize) {
    let blocks = &mut book.functions[place].blocks;
    let target = rng.pick(blocks).label.clone();
    let number = *rng.pick(&[1 << 64, (1 << 64) - 1, -(1 << 63), -(1 << 63) - 1]);
    let at = rng.below(blocks.len());
    let (ty, val) = (Type::Int(64), Value::Int(7));
    let cases = vec![(5, target.clone()), (number, target.clone())];
    blocks[at].term = Terminator::Switch { ty, val, default: target, cases };
}
