//! Small functions for the tests, with how their runs end by hand.
use crate::book::*;
use crate::two_runs::make::Made;
use crate::two_runs::source::Stop;
use crate::two_runs::world::Shape;
use std::collections::{BTreeMap, BTreeSet};

/// How a run ends: with a value or at a stop.
pub type Ends = Result<u64, Stop>;

pub struct Case {
    pub name: &'static str,
    pub made: Made,
    pub args: Vec<u64>,
    pub ends: Ends,
}

fn case(name: &'static str, made: Made, args: &[u64], ends: Ends) -> Case {
    Case { name, made, args: args.to_vec(), ends }
}

// ---- short ways to write a function
type Block = (&'static str, Vec<Inst>, Terminator);

pub fn local(name: &str) -> Value {
    Value::Local(name.to_string())
}

pub fn set(name: &str, kind: InstKind) -> Inst {
    Inst { dest: Some(name.to_string()), kind }
}

pub fn act(kind: InstKind) -> Inst {
    Inst { dest: None, kind }
}

fn bin(op: BinOp, width: u32, lhs: Value, rhs: Value) -> InstKind {
    InstKind::Bin { op, ty: Type::Int(width), lhs, rhs }
}

fn icmp(pred: ICmpPred, width: u32, lhs: Value, rhs: Value) -> InstKind {
    InstKind::ICmp { pred, ty: Type::Int(width), lhs, rhs }
}

fn phi(width: u32, incoming: &[(Value, &str)]) -> InstKind {
    let incoming = incoming.iter().map(|(value, label)| (value.clone(), label.to_string())).collect();
    InstKind::Phi { ty: Type::Int(width), incoming }
}

pub fn call(ret_ty: Type, callee: &str, args: Vec<TypedVal>) -> InstKind {
    InstKind::Call { ret_ty, fn_ty: None, callee: Value::Global(callee.to_string()), args }
}

fn place(ty: Type, count: Option<TypedVal>) -> InstKind {
    InstKind::Alloca { ty, count, align: None }
}

pub fn typed(ty: Type, val: Value) -> TypedVal {
    TypedVal { ty, val }
}

fn ret(ty: Type, val: Value) -> Terminator {
    Terminator::Ret { val: Some(typed(ty, val)) }
}

pub fn load(ty: Type, ptr: &str) -> InstKind {
    InstKind::Load { ty, ptr: local(ptr), align: None }
}

fn br(to: &str) -> Terminator {
    Terminator::Br { cond: None, if_true: to.to_string(), if_false: None }
}

/// The function `f`; `go` is defined too, `__uvm_put` is a syscall of one argument without a reply.
fn function(ret_ty: Type, params: &[(&str, Type)], blocks: Vec<Block>) -> Made {
    let params: Vec<Param> =
        params.iter().map(|(name, ty)| Param { ty: ty.clone(), name: Some(name.to_string()) }).collect();
    let blocks: Vec<BasicBlock> =
        blocks.into_iter().map(|(label, insts, term)| BasicBlock { label: label.to_string(), insts, term }).collect();
    let mut names: BTreeSet<String> = ["f", "go", "__uvm_put", "memcmp", "unset"].map(str::to_string).into();
    names.extend(params.iter().filter_map(|param| param.name.clone()));
    names.extend(blocks.iter().map(|block| block.label.clone()));
    names.extend(blocks.iter().flat_map(|block| &block.insts).filter_map(|inst| inst.dest.clone()));
    let function =
        Function { name: "f".to_string(), ret_ty, params, varargs: false, linkage: Linkage::External, blocks };
    let marks = vec![(Mark::Defined, "go".to_string())];
    let book = Book { names: names.into_iter().collect(), marks, structs: vec![], functions: vec![function] };
    Made { book, shapes: BTreeMap::from([("put".to_string(), Shape { args: 1, replies: false })]) }
}

/// One block that gives the result of its last instruction.
pub fn gives(ty: Type, params: &[(&str, Type)], insts: Vec<Inst>) -> Made {
    let last = insts.last().and_then(|inst| inst.dest.clone()).unwrap_or_default();
    function(ty.clone(), params, vec![("a", insts, ret(ty, local(&last)))])
}

// ---- functions

/// Phis x and y that swap, for so many rounds; then x - y.
pub fn swapping(rounds: i128) -> Made {
    let i8 = Type::Int(8);
    let head = vec![
        set("x", phi(8, &[(local("p"), "a"), (local("y"), "b")])),
        set("y", phi(8, &[(local("q"), "a"), (local("x"), "b")])),
        set("n", phi(8, &[(Value::Int(0), "a"), (local("m"), "b")])),
        set("m", bin(BinOp::Add, 8, local("n"), Value::Int(1))),
        set("c", icmp(ICmpPred::Ult, 8, local("m"), Value::Int(rounds))),
    ];
    let again = Terminator::Br { cond: Some(local("c")), if_true: "b".to_string(), if_false: Some("d".to_string()) };
    let tail = vec![set("z", bin(BinOp::Sub, 8, local("x"), local("y")))];
    let blocks = vec![("a", vec![], br("b")), ("b", head, again), ("d", tail, ret(i8.clone(), local("z")))];
    function(i8.clone(), &[("p", i8.clone()), ("q", i8)], blocks)
}

/// A cmpxchg at %p that stores 9, and a part of its result.
fn swap(cmp: i128, index: u32, ty: Type) -> Made {
    let kind = InstKind::Cmpxchg { ty: Type::Int(64), ptr: local("p"), cmp: Value::Int(cmp), new: Value::Int(9) };
    let insts = vec![set("s", kind), set("r", InstKind::ExtractValue { agg: local("s"), index })];
    gives(ty, &[("p", Type::Ptr)], insts)
}

/// A field of {i8, i32, i8}, so many structs on from %p by an index of this width.
fn field(width: u32, index: i128, field: i128) -> Made {
    let base_ty = Type::Struct(StructBody { packed: false, fields: vec![Type::Int(8), Type::Int(32), Type::Int(8)] });
    let indices = vec![typed(Type::Int(width), Value::Int(index)), typed(Type::Int(32), Value::Int(field))];
    let kind = InstKind::GetElementPtr { inbounds: false, base_ty, ptr: local("p"), indices };
    gives(Type::Ptr, &[("p", Type::Ptr)], vec![set("r", kind)])
}

/// Two fixed places, %p bytes, and %p numbers of 64 bits behind them.
fn places() -> Made {
    let i8 = Type::Int(8);
    let count = || Some(typed(Type::Int(8), local("p")));
    let insts = vec![
        set("u", place(i8.clone(), None)),
        set("v", place(Type::Int(32), None)),
        set("w", place(i8.clone(), count())),
        set("r", place(Type::Int(64), count())),
    ];
    gives(Type::Ptr, &[("p", i8)], insts)
}

/// The switch's own value is -2; the case that it meets gives 1.
fn switching(case: i128) -> Made {
    let cases = vec![(5, "b".to_string()), (case, "d".to_string())];
    let term = Terminator::Switch { ty: Type::Int(8), val: local("p"), default: "b".to_string(), cases };
    let gives = |number| ret(Type::Int(8), Value::Int(number));
    let blocks = vec![("a", vec![], term), ("b", vec![], gives(0)), ("d", vec![], gives(1))];
    function(Type::Int(8), &[("p", Type::Int(8))], blocks)
}

pub fn returning() -> Vec<Case> {
    let found = 0x0101_0101_0101_0107;
    let add1 = vec![set("r", bin(BinOp::Add, 32, local("p"), Value::Int(1)))];
    let wraps = vec![set("r", load(Type::Int(32), "p"))];
    vec![
        case("add1", gives(Type::Int(32), &[("p", Type::Int(32))], add1), &[u32::MAX as u64], Ok(0)),
        case("phis that swap, 1 round", swapping(1), &[9, 2], Ok(7)),
        case("phis that swap, 2 rounds", swapping(2), &[9, 2], Ok(249)),
        case("cmpxchg that stores", swap(found, 1, Type::Int(1)), &[4096], Ok(1)),
        case("cmpxchg that does not", swap(8, 0, Type::Int(64)), &[4096], Ok(found as u64)),
        case("field 2 of the struct before", field(1, -1, 2), &[4], Ok(0)),
        case("a varying place behind another", places(), &[9], Ok(65_536 + 24)),
        case("a load that wraps", gives(Type::Int(32), &[("p", Type::Ptr)], wraps), &[u64::MAX], Ok(0x0101_0101)),
        case("a negative case", switching(-2), &[254], Ok(1)),
        case("a case as unsigned", switching(254), &[254], Ok(1)),
        case("the default", switching(2), &[254], Ok(0)),
    ]
}

pub fn stopping() -> Vec<Case> {
    let (i8, i64) = (Type::Int(8), Type::Int(64));
    let one = |ty: &Type, params: &[(&str, Type)], kind: InstKind| gives(ty.clone(), params, vec![set("r", kind)]);
    let sum = |operand: Value| bin(BinOp::Add, 8, operand, Value::Int(0));
    let pointer = [("p", Type::Ptr)];
    let empty = Type::Struct(StructBody { packed: false, fields: vec![] });
    let twice = vec![("a", vec![set("u", place(i8.clone(), None))], br("a"))];
    let cmpxchg = InstKind::Cmpxchg { ty: i64.clone(), ptr: local("p"), cmp: Value::Int(1), new: Value::Int(9) };
    let unreachable = vec![("a", vec![], Terminator::Unreachable)];
    let array = Type::Array { packed: false, len: 4, elem: Box::new(i8.clone()) };
    vec![
        case("unset", one(&i8, &[], sum(local("r"))), &[], Err(Stop::Unset)),
        case("another width", one(&i8, &[("p", i64.clone())], sum(local("p"))), &[0], Err(Stop::OtherWidth)),
        case("an i1 of 7", one(&Type::Int(1), &pointer, load(Type::Int(1), "p")), &[4096], Err(Stop::LoadRange)),
        case("integer range", one(&i8, &[], sum(Value::Int(-129))), &[], Err(Stop::IntegerRange)),
        case("a case's range", switching(256), &[254], Err(Stop::IntegerRange)),
        case("an index's range", field(8, 128, 0), &[0], Err(Stop::IndexRange)),
        case("a place twice", function(Type::Void, &[], twice), &[], Err(Stop::PlaceTwice)),
        case("an empty frame", one(&Type::Ptr, &[], place(empty, None)), &[], Err(Stop::PlaceEmpty)),
        case("a cmpxchg's result as a value", one(&i64, &pointer, cmpxchg), &[4096], Err(Stop::Aggregate)),
        case("a load of an array", one(&i64, &pointer, load(array.clone(), "p")), &[4096], Err(Stop::Aggregate)),
        case("a call that gives an array", one(&i64, &[], call(array, "go", vec![])), &[], Err(Stop::ResultType)),
        case("another shape", one(&i8, &[], call(i8.clone(), "__uvm_put", vec![])), &[], Err(Stop::SyscallShape)),
        case("a void call with a name", one(&i8, &[], call(Type::Void, "go", vec![])), &[], Err(Stop::IllFormed)),
        case("unreachable", function(Type::Void, &[], unreachable), &[], Err(Stop::Unreachable)),
        case("no block", function(Type::Void, &[], vec![]), &[], Err(Stop::NoBlock)),
    ]
}
