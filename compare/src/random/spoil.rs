//! Faults put into a function on purpose, one sort for each refusal. Other faults may come first, and some are never met.
use super::{leading_phis, Maker};
use crate::book::*;
use crate::oracle::is_reserved;
use crate::visit;

/// The refusals that `spoil` aims at; 8 is for `many_slots`, 7 and 3 are rarer.
const AIMS: &[u8] = &[5, 5, 6, 6, 7, 9, 9, 10, 10, 11, 12, 13, 14, 14, 15, 15, 16, 17, 18, 19];

pub fn spoil(maker: &mut Maker, function: &mut Function) {
    let aim = if maker.rng.chance(15) { 3 } else { *maker.rng.pick(AIMS) };
    spoil_for(maker, function, aim);
}

/// A fault that an instruction or terminator has where it stands.
pub fn spoil_instruction(maker: &mut Maker, function: &mut Function) {
    let aim = *maker.rng.pick(&[9, 10, 11, 12, 13, 14, 15, 16, 17, 18, 19]);
    spoil_for(maker, function, aim);
}

/// A fault that the frame pass meets: 5, 6 or 7.
pub fn spoil_frame(maker: &mut Maker, function: &mut Function) {
    let ty = match maker.rng.below(3) {
        0 => maker.scalar(),
        1 => maker.unmeasurable(),
        _ => large(maker),
    };
    let dest = if maker.rng.chance(700) { Some(maker.new_local("r")) } else { None };
    insert(maker, function, Inst { dest, kind: InstKind::Alloca { ty, count: None, align: None } });
}

fn spoil_for(maker: &mut Maker, function: &mut Function, aim: u8) {
    match aim {
        3 => forbid(maker, function),
        5 => unname(maker, function),
        10 => unknown_local(maker, function),
        17 => unknown_block(maker, function),
        18 => lose_predecessor(maker, function),
        19 => lose_false_target(maker, function),
        9 if maker.rng.chance(300) => {
            let ty = maker.any_type();
            visit::one_of(&mut maker.rng, function, visit::each_type, |old| *old = ty.clone());
        }
        _ => {
            let inst = faulty(maker, aim);
            insert(maker, function, inst);
        }
    }
}

/// Puts an instruction somewhere, mostly behind the leading phis.
fn insert(maker: &mut Maker, function: &mut Function, inst: Inst) {
    if function.blocks.is_empty() {
        return;
    }
    let place = maker.rng.below(function.blocks.len());
    let insts = &mut function.blocks[place].insts;
    let first = if maker.rng.chance(900) { leading_phis(insts) } else { 0 };
    insts.insert(maker.rng.range(first, insts.len()), inst);
}

/// 3: a value of kind 37, or a call that no book may have.
fn forbid(maker: &mut Maker, function: &mut Function) {
    if maker.rng.chance(300) {
        visit::one_of(&mut maker.rng, function, visit::each_value, |value| *value = other_value());
        return;
    }
    let name = *maker.rng.pick(&["llvm.trap", "llvm.", "sinf", "pow"]);
    let callee = Value::Global(maker.note(name));
    let args = maker.args();
    insert(maker, function, Inst { dest: None, kind: InstKind::Call { ret_ty: Type::Void, fn_ty: None, callee, args } });
}

/// 5: takes a result name away.
fn unname(maker: &mut Maker, function: &mut Function) {
    let special = maker.rng.chance(400);
    let needs = |inst: &Inst| match &inst.kind {
        InstKind::Alloca { .. } | InstKind::Phi { .. } | InstKind::Cmpxchg { .. } => inst.dest.is_some(),
        InstKind::Call { .. } | InstKind::Store { .. } | InstKind::AtomicStore { .. } | InstKind::Fence => false,
        _ => inst.dest.is_some() && !special,
    };
    let insts = function.blocks.iter_mut().flat_map(|block| &mut block.insts);
    let mut named: Vec<&mut Inst> = insts.filter(|inst| needs(inst)).collect();
    if !named.is_empty() {
        let at = maker.rng.below(named.len());
        named[at].dest = None;
    }
}

/// 10: an operand becomes a local that nobody sets.
fn unknown_local(maker: &mut Maker, function: &mut Function) {
    let name = maker.new_local("gone");
    visit::one_of(&mut maker.rng, function, visit::each_value, |value| *value = Value::Local(name.clone()));
}

/// 17: a branch goes nowhere.
fn unknown_block(maker: &mut Maker, function: &mut Function) {
    let name = maker.new_label("nowhere");
    let mut found = false;
    visit::one_of(&mut maker.rng, function, visit::each_target, |target| {
        *target = name.clone();
        found = true;
    });
    if !found {
        end_block(maker, function, Terminator::Br { cond: None, if_true: name, if_false: None });
    }
}

/// 18: a phi forgets a predecessor.
fn lose_predecessor(maker: &mut Maker, function: &mut Function) {
    let mut lost = false;
    let chance = maker.rng.chance(500);
    visit::each_inst(function, &mut |inst| {
        if let InstKind::Phi { incoming, .. } = &mut inst.kind {
            if !lost && !incoming.is_empty() && (chance || maker.rng.chance(500)) {
                incoming.remove(maker.rng.below(incoming.len()));
                lost = true;
            }
        }
    });
    if lost || function.blocks.is_empty() {
        return;
    }
    // No phi: a block jumps to itself, and its new phi knows others only.
    let place = maker.rng.below(function.blocks.len());
    let from = maker.new_label("other");
    let ty = maker.scalar();
    let phi = InstKind::Phi { incoming: vec![(maker.value(&ty), from)], ty };
    let dest = Some(maker.new_local("r"));
    let block = &mut function.blocks[place];
    block.insts.insert(0, Inst { dest, kind: phi });
    block.term = Terminator::Br { cond: None, if_true: block.label.clone(), if_false: None };
}

/// 19: a block ends with half a branch.
fn lose_false_target(maker: &mut Maker, function: &mut Function) {
    let Some(block) = function.blocks.first() else { return };
    let if_true = block.label.clone();
    let cond = maker.value(&Type::Int(1));
    end_block(maker, function, Terminator::Br { cond: Some(cond), if_true, if_false: None });
}

fn end_block(maker: &mut Maker, function: &mut Function, term: Terminator) {
    if !function.blocks.is_empty() {
        let place = maker.rng.below(function.blocks.len());
        function.blocks[place].term = term;
    }
}

/// An instruction with the fault.
fn faulty(maker: &mut Maker, aim: u8) -> Inst {
    let kind = match aim {
        6 => {
            let ty = maker.unmeasurable();
            measuring(maker, ty)
        }
        7 => {
            let ty = large(maker);
            measuring(maker, ty)
        }
        9 => no_integer(maker),
        11 => no_scalar_size(maker),
        12 => no_atomic_size(maker),
        13 => no_extension(maker),
        14 => no_step(maker),
        15 => no_target(maker),
        _ => no_pair(maker),
    };
    Inst { dest: Some(maker.new_local("r")), kind }
}

/// An instruction that asks for the size of the type.
fn measuring(maker: &mut Maker, ty: Type) -> InstKind {
    let ptr = maker.value(&Type::Ptr);
    let val = maker.any_value();
    match maker.rng.below(9) {
        0 => InstKind::Load { ty, ptr, align: None },
        1 => InstKind::Store { ty, val, ptr, align: None },
        2 => InstKind::Alloca { ty, count: None, align: None },
        3 => InstKind::Alloca { ty, count: Some(TypedVal { ty: Type::Int(64), val }), align: None },
        4 => {
            let count = TypedVal { ty: Type::Int(64), val: Value::Int(maker.integer()) };
            InstKind::Alloca { ty, count: Some(count), align: Some(16) }
        }
        5 => InstKind::GetElementPtr { inbounds: false, base_ty: ty, ptr, indices: vec![maker.index()] },
        6 => InstKind::Freeze { ty, val },
        7 => InstKind::AtomicLoad { ty, ptr },
        _ => InstKind::Cmpxchg { ty, ptr, cmp: val.clone(), new: val },
    }
}

fn array(len: u64, elem: Type) -> Type {
    Type::Array { packed: false, len, elem: Box::new(elem) }
}

fn structure(fields: Vec<Type>) -> Type {
    Type::Struct(StructBody { packed: false, fields })
}

/// 7, or just below: types about 2^24 bytes or 64 levels.
fn large(maker: &mut Maker) -> Type {
    let near = 1u64 << 24;
    match maker.rng.below(7) {
        0 => array(near + maker.rng.below(3) as u64 - 1, Type::Int(8)),
        1 => array(maker.rng.next() >> maker.rng.below(64), maker.sized(1)),
        2 => structure(vec![array(near - maker.rng.below(3) as u64, Type::Int(8)), maker.scalar()]),
        3 => array(0, array(near + 1, Type::Int(8))),
        4 => (0..maker.rng.range(60, 63)).fold(maker.sized(0), |ty, _| array(1, ty)),
        5 => {
            // Named structs that hold one another: two levels each.
            let mut ty = maker.sized(0);
            for _ in 0..maker.rng.range(29, 33) {
                let body = StructBody { packed: maker.rng.chance(500), fields: vec![ty] };
                ty = Type::NamedStruct(maker.add_struct("deep", Some(body)));
            }
            ty
        }
        _ => {
            // A struct that holds itself.
            let name = maker.add_struct("self", None);
            let own = Type::NamedStruct(name.clone());
            let body = StructBody { packed: maker.rng.chance(300), fields: vec![maker.scalar(), own.clone()] };
            maker.set_struct(&name, body);
            own
        }
    }
}

/// 9: another type where an integer or pointer is expected.
fn no_integer(maker: &mut Maker) -> InstKind {
    let ty = loop {
        let ty = maker.any_type();
        if !matches!(ty, Type::Int(_) | Type::Ptr) {
            break ty;
        }
    };
    let (one, two) = (maker.any_value(), maker.any_value());
    match maker.rng.below(8) {
        0 => InstKind::Bin { op: *maker.rng.pick(&BIN_OPS), ty, lhs: one, rhs: two },
        1 => InstKind::ICmp { pred: *maker.rng.pick(&PREDS), ty, lhs: one, rhs: two },
        2 => InstKind::Conv { op: *maker.rng.pick(&CONV_OPS), from_ty: ty, val: one, to_ty: maker.any_type() },
        3 => InstKind::Conv { op: *maker.rng.pick(&CONV_OPS), from_ty: maker.scalar(), val: one, to_ty: ty },
        4 => InstKind::Select { cond: maker.any_value(), ty, tval: one, fval: two },
        5 => InstKind::Store { ty: structure(vec![maker.scalar()]), val: one, ptr: two, align: None },
        6 => {
            let mut args = maker.args();
            args.push(TypedVal { ty, val: one });
            let callee = if maker.rng.chance(500) { maker.global() } else { Value::Global(maker.note("bcmp")) };
            InstKind::Call { ret_ty: Type::Void, fn_ty: None, callee: callable(maker, callee), args }
        }
        _ => {
            let indices = vec![TypedVal { ty, val: Value::Undef }];
            InstKind::GetElementPtr { inbounds: false, base_ty: maker.sized(1), ptr: one, indices }
        }
    }
}

/// Keeps refusal 3 away.
fn callable(maker: &mut Maker, callee: Value) -> Value {
    match callee {
        Value::Global(name) if name.starts_with("llvm.") || is_reserved(&name) => {
            Value::Global(maker.note("nobody"))
        }
        callee => callee,
    }
}

/// 11: a load or store of another size than 1, 2, 4 or 8.
fn no_scalar_size(maker: &mut Maker) -> InstKind {
    let ty = match maker.rng.below(6) {
        0 => array(3, Type::Int(8)),
        1 => Type::Void,
        2 => structure(vec![]),
        3 => array(0, maker.sized(1)),
        4 => structure(vec![Type::Int(8), Type::Int(32), Type::Int(8)]),
        _ => maker.aggregate(),
    };
    let (val, ptr) = (maker.any_value(), maker.any_value());
    if maker.rng.chance(500) {
        InstKind::Load { ty, ptr, align: None }
    } else {
        InstKind::Store { ty, val, ptr, align: None }
    }
}

/// 12: an atomic type of another size than 8.
fn no_atomic_size(maker: &mut Maker) -> InstKind {
    let ty = match maker.rng.below(4) {
        0 => Type::Void,
        1 => maker.aggregate(),
        _ => Type::Int(*maker.rng.pick(&[1, 8, 16, 32])),
    };
    let (ptr, val) = (maker.any_value(), maker.any_value());
    match maker.rng.below(3) {
        0 => InstKind::AtomicLoad { ty, ptr },
        1 => InstKind::AtomicStore { ty, val, ptr },
        _ => InstKind::Cmpxchg { ty, ptr, cmp: val, new: maker.any_value() },
    }
}

/// 13: a sign extension that goes nowhere.
fn no_extension(maker: &mut Maker) -> InstKind {
    let narrow = Type::Int(*maker.rng.pick(&[1, 8, 16, 32]));
    let (from_ty, to_ty) = match maker.rng.below(3) {
        0 => (Type::Int(32), narrow),
        1 => (Type::Int(64), maker.scalar()),
        _ => (Type::Ptr, maker.scalar()),
    };
    InstKind::Conv { op: ConvOp::SExt, from_ty, val: maker.any_value(), to_ty }
}

/// 14: a getelementptr that steps off its type, now and then.
fn no_step(maker: &mut Maker) -> InstKind {
    let mut indices = vec![maker.index()];
    let two = vec![Type::Int(8), maker.sized(1)];
    let base_ty = match maker.rng.below(5) {
        0 => maker.scalar(),
        1 => Type::Struct(StructBody { packed: maker.rng.chance(500), fields: two }),
        2 => Type::NamedStruct(maker.add_struct("two", Some(StructBody { packed: false, fields: two }))),
        3 => array(2, maker.scalar()),
        _ => Type::Struct(maker.body(1)),
    };
    for _ in 0..maker.rng.range(1, 3) {
        let ty = maker.scalar();
        let val = match maker.rng.below(4) {
            0 => Value::Int(maker.rng.below(4) as i128),
            1 => Value::Int(maker.integer() as i32 as i128),
            2 => maker.constant(),
            _ => maker.index().val,
        };
        indices.push(TypedVal { ty, val });
    }
    InstKind::GetElementPtr { inbounds: false, base_ty, ptr: maker.any_value(), indices }
}

/// 15: a call of nothing, or of too many arguments.
fn no_target(maker: &mut Maker) -> InstKind {
    let mut args = maker.args();
    let callee = match maker.rng.below(6) {
        0 => Value::Null,
        1 => Value::Int(maker.integer()),
        2 => maker.rng.pick(&[Value::Undef, Value::Poison, Value::ZeroInit]).clone(),
        3 => {
            let arg = maker.value(&Type::Int(32));
            args.resize_with(256, || TypedVal { ty: Type::Int(32), val: arg.clone() });
            let name = *maker.rng.pick(&["bcmp", "__uvm_print", "nobody", "memcmp.1"]);
            Value::Global(maker.note(name))
        }
        _ => {
            let name = *maker.rng.pick(&["nobody", "bcmp.1", "__uvm", "llvm", "x.with.overflow.z"]);
            Value::Global(maker.note(name))
        }
    };
    InstKind::Call { ret_ty: maker.scalar(), fn_ty: None, callee, args }
}

/// 16: an extractvalue of no pair, or of a field beyond.
fn no_pair(maker: &mut Maker) -> InstKind {
    let agg = match maker.rng.below(4) {
        0 => maker.constant(),
        1 => Value::Int(maker.integer()),
        2 => Value::Local(maker.new_local("gone")),
        _ => maker.any_local().map_or(Value::Undef, Value::Local),
    };
    let index = *maker.rng.pick(&[0, 1, 2, 3, u32::MAX]);
    InstKind::ExtractValue { agg, index }
}

/// 8, or just below: the function gets about 65,535 slots.
pub fn many_slots(maker: &mut Maker, function: &mut Function) {
    let mut slots = 0;
    visit::each_inst(function, &mut |inst| slots += inst.dest.is_some() as usize);
    let Some(block) = function.blocks.last_mut() else { return };
    let wanted = if maker.rng.chance(800) { 65_536 } else { maker.rng.range(65_534, 65_537) };
    let name = maker.new_local("r");
    // A cmpxchg takes two slots, which halves the work; it has lines, so a fence serves where the book may be accepted.
    let pairs = if wanted == 65_536 { wanted.saturating_sub(slots) / 2 } else { 0 };
    block.insts.reserve_exact(wanted.saturating_sub(slots + pairs));
    for _ in 0..pairs {
        let kind = InstKind::Cmpxchg { ty: Type::Int(64), ptr: Value::Null, cmp: Value::Null, new: Value::Null };
        block.insts.push(Inst { dest: Some(name.clone()), kind });
    }
    for _ in slots + 2 * pairs..wanted {
        block.insts.push(Inst { dest: Some(name.clone()), kind: InstKind::Fence });
    }
}
