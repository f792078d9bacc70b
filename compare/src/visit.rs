//! Walks over the parts of a function, to change some of them.
use crate::book::*;
use crate::rng::Rng;

pub fn each_inst(function: &mut Function, change: &mut dyn FnMut(&mut Inst)) {
    function.blocks.iter_mut().flat_map(|block| &mut block.insts).for_each(change);
}

/// Every operand.
pub fn each_value(function: &mut Function, change: &mut dyn FnMut(&mut Value)) {
    for block in &mut function.blocks {
        for inst in &mut block.insts {
            inst_values(&mut inst.kind, change);
        }
        match &mut block.term {
            Terminator::Ret { val: Some(typed) } => change(&mut typed.val),
            Terminator::Br { cond: Some(cond), .. } => change(cond),
            Terminator::Switch { val, .. } => change(val),
            _ => {}
        }
    }
}

fn inst_values(inst: &mut InstKind, change: &mut dyn FnMut(&mut Value)) {
    match inst {
        InstKind::Bin { lhs, rhs, .. } | InstKind::ICmp { lhs, rhs, .. } => [lhs, rhs].into_iter().for_each(change),
        InstKind::Conv { val, .. } | InstKind::Freeze { val, .. } => change(val),
        InstKind::Select { cond, tval, fval, .. } => [cond, tval, fval].into_iter().for_each(change),
        InstKind::Load { ptr, .. } | InstKind::AtomicLoad { ptr, .. } => change(ptr),
        InstKind::Store { val, ptr, .. } | InstKind::AtomicStore { val, ptr, .. } => [val, ptr].into_iter().for_each(change),
        InstKind::Alloca { count: Some(typed), .. } => change(&mut typed.val),
        InstKind::GetElementPtr { ptr, indices, .. } => {
            change(ptr);
            indices.iter_mut().for_each(|index| change(&mut index.val));
        }
        InstKind::Phi { incoming, .. } => incoming.iter_mut().for_each(|(value, _)| change(value)),
        InstKind::Call { callee, args, .. } => {
            change(callee);
            args.iter_mut().for_each(|arg| change(&mut arg.val));
        }
        InstKind::Cmpxchg { ptr, cmp, new, .. } => [ptr, cmp, new].into_iter().for_each(change),
        InstKind::ExtractValue { agg, .. } => change(agg),
        _ => {}
    }
}

/// Every type that stands in an instruction or terminator, not the parts of it.
pub fn each_type(function: &mut Function, change: &mut dyn FnMut(&mut Type)) {
    for block in &mut function.blocks {
        for inst in &mut block.insts {
            inst_types(&mut inst.kind, change);
        }
        match &mut block.term {
            Terminator::Ret { val: Some(typed) } => change(&mut typed.ty),
            Terminator::Switch { ty, .. } => change(ty),
            _ => {}
        }
    }
}

fn inst_types(inst: &mut InstKind, change: &mut dyn FnMut(&mut Type)) {
    match inst {
        InstKind::Bin { ty, .. }
        | InstKind::ICmp { ty, .. }
        | InstKind::Select { ty, .. }
        | InstKind::Load { ty, .. }
        | InstKind::Store { ty, .. }
        | InstKind::Phi { ty, .. }
        | InstKind::Freeze { ty, .. }
        | InstKind::AtomicLoad { ty, .. }
        | InstKind::AtomicStore { ty, .. }
        | InstKind::Cmpxchg { ty, .. } => change(ty),
        InstKind::Conv { from_ty, to_ty, .. } => [from_ty, to_ty].into_iter().for_each(change),
        InstKind::Alloca { ty, count, .. } => {
            change(ty);
            count.iter_mut().for_each(|count| change(&mut count.ty));
        }
        InstKind::GetElementPtr { base_ty, indices, .. } => {
            change(base_ty);
            indices.iter_mut().for_each(|index| change(&mut index.ty));
        }
        InstKind::Call { ret_ty, args, .. } => {
            change(ret_ty);
            args.iter_mut().for_each(|arg| change(&mut arg.ty));
        }
        _ => {}
    }
}

/// Every block name that a terminator branches to.
pub fn each_target(function: &mut Function, change: &mut dyn FnMut(&mut String)) {
    for block in &mut function.blocks {
        match &mut block.term {
            Terminator::Br { if_true, if_false, .. } => {
                change(if_true);
                if_false.iter_mut().for_each(&mut *change);
            }
            Terminator::Switch { default, cases, .. } => {
                change(default);
                cases.iter_mut().for_each(|(_, target)| change(target));
            }
            _ => {}
        }
    }
}

/// Every block name: labels, targets, and the predecessors in phis.
pub fn each_label(function: &mut Function, change: &mut dyn FnMut(&mut String)) {
    function.blocks.iter_mut().for_each(|block| change(&mut block.label));
    each_target(function, change);
    each_inst(function, &mut |inst| {
        if let InstKind::Phi { incoming, .. } = &mut inst.kind {
            incoming.iter_mut().for_each(|(_, block)| change(block));
        }
    });
}

/// Changes one of the parts that `each` walks over, if there are any.
pub fn one_of<T>(
    rng: &mut Rng,
    function: &mut Function,
    each: fn(&mut Function, &mut dyn FnMut(&mut T)),
    mut change: impl FnMut(&mut T),
) {
    let mut count = 0;
    each(function, &mut |_| count += 1);
    if count == 0 {
        return;
    }
    let chosen = rng.below(count);
    let mut place = 0;
    each(function, &mut |part| {
        if place == chosen {
            change(part);
        }
        place += 1;
    });
}
