//! Phis and terminators of random functions.
use super::flow::{Ending, Flow};
use super::Maker;
use crate::book::*;
use std::collections::BTreeMap;

/// The counter of a loop: its phi, and its value after this round.
pub struct Counter {
    phi: String,
    next: String,
    ty: Type,
}

pub type Counters = BTreeMap<usize, Counter>;

impl Maker {
    /// The phis of a block, to be filled when all blocks are made; the counter where it begins a loop.
    pub fn phis(&mut self, flow: &Flow, block: usize, counters: &mut Counters) -> Vec<Inst> {
        let from = flow.predecessors(block);
        let mut insts = vec![];
        if from.is_empty() || block == 0 && !self.rng.chance(100) {
            return insts;
        }
        let ty = self.scalar();
        let loops = block > 0 && from.iter().any(|from| flow.leads_back(*from, block));
        for place in 0..self.rng.below(3) + loops as usize {
            // Phis of one type may take each other's values.
            let ty = if place == 0 || self.rng.chance(700) { ty.clone() } else { self.scalar() };
            insts.push(self.phi(ty));
        }
        if loops && self.rng.chance(750) {
            let ty = Type::Int(*self.rng.pick(&WIDTHS[1..]));
            insts.push(self.phi(ty.clone()));
            let phi = insts[insts.len() - 1].dest.clone().unwrap_or_default();
            let next = self.result(ty.clone()).unwrap_or_default();
            let (lhs, rhs) = (Value::Local(phi.clone()), Value::Int(1));
            let kind = InstKind::Bin { op: BinOp::Add, ty: ty.clone(), lhs, rhs };
            insts.push(Inst { dest: Some(next.clone()), kind });
            counters.insert(block, Counter { phi, next, ty });
        }
        insts
    }

    fn phi(&mut self, ty: Type) -> Inst {
        Inst { dest: self.result(ty.clone()), kind: InstKind::Phi { ty, incoming: vec![] } }
    }

    pub fn fill_phis(&mut self, flow: &Flow, labels: &[String], counters: &Counters, blocks: &mut [BasicBlock]) {
        for (block, made) in blocks.iter_mut().enumerate() {
            let count = crate::random::leading_phis(&made.insts);
            let phis: Vec<(String, Type)> = made.insts[..count].iter().filter_map(named_phi).collect();
            for inst in &mut made.insts[..count] {
                let InstKind::Phi { ty, incoming } = &mut inst.kind else { break };
                for from in flow.predecessors(block) {
                    self.set = flow.dominators(from);
                    let counter = counters.get(&block).filter(|counter| Some(&counter.phi) == inst.dest.as_ref());
                    let value = match counter {
                        Some(counter) if flow.leads_back(from, block) => Value::Local(counter.next.clone()),
                        Some(_) => Value::Int(self.rng.below(3) as i128),
                        None if flow.leads_back(from, block) && self.rng.chance(700) => self.other_phi(&phis, ty),
                        None => self.value(ty),
                    };
                    incoming.push((value, labels[from].clone()));
                }
                self.rng.shuffle(incoming);
                // The first matching predecessor counts.
                if self.rng.chance(50) {
                    incoming.push((self.value(ty), self.rng.pick(labels).clone()));
                }
            }
        }
    }

    /// A phi of the same block: taken round a loop, phis swap.
    fn other_phi(&mut self, phis: &[(String, Type)], ty: &Type) -> Value {
        let same: Vec<&String> = phis.iter().filter(|(_, other)| other == ty).map(|(name, _)| name).collect();
        Value::Local((*self.rng.pick(&same)).clone())
    }

    pub fn term(
        &mut self,
        flow: &Flow,
        labels: &[String],
        ret_ty: &Type,
        counters: &Counters,
        insts: &mut Vec<Inst>,
    ) -> Terminator {
        let label = |block: &usize| labels[*block].clone();
        match &flow.endings[self.block] {
            Ending::Ret => self.ret(ret_ty),
            Ending::Br(to) => Terminator::Br { cond: None, if_true: label(to), if_false: None },
            Ending::CondBr(yes, no) => {
                let counter = [yes, no].into_iter().find_map(|to| Some((to == yes, counters.get(to)?)));
                let back = flow.leads_back(self.block, *yes) || flow.leads_back(self.block, *no);
                let cond = match counter {
                    Some((again, counter)) if back => self.counted(counter, again, insts),
                    _ => self.condition(insts),
                };
                Terminator::Br { cond: Some(cond), if_true: label(yes), if_false: Some(label(no)) }
            }
            Ending::Switch(default, targets) => {
                let ty = self.int_type();
                let val = self.value(&ty);
                let cases = targets.iter().map(|to| (self.case_of(&ty), label(to))).collect();
                Terminator::Switch { ty, val, default: label(default), cases }
            }
            Ending::Unreachable => Terminator::Unreachable,
        }
    }

    /// Of the function's type, but for a few.
    fn ret(&mut self, ret_ty: &Type) -> Terminator {
        match ret_ty {
            _ if self.rng.below(1000) < self.risk => Terminator::Ret { val: Some(self.typed(Type::Int(8))) },
            Type::Int(_) | Type::Ptr => Terminator::Ret { val: Some(self.typed(ret_ty.clone())) },
            _ => Terminator::Ret { val: None },
        }
    }

    /// Whether the loop goes round again, or whether it does not.
    fn counted(&mut self, counter: &Counter, again: bool, insts: &mut Vec<Inst>) -> Value {
        let pred = if again { *self.rng.pick(&[ICmpPred::Ult, ICmpPred::Slt, ICmpPred::Ne]) } else { ICmpPred::Uge };
        let rhs = Value::Int(self.rng.range(2, 5) as i128);
        let kind = InstKind::ICmp { pred, ty: counter.ty.clone(), lhs: Value::Local(counter.next.clone()), rhs };
        let name = self.result(Type::Int(1));
        insts.push(Inst { dest: name.clone(), kind });
        Value::Local(name.unwrap_or_default())
    }

    fn condition(&mut self, insts: &mut Vec<Inst>) -> Value {
        if self.rng.chance(400) {
            insts.push(self.icmp());
        }
        self.value(&Type::Int(1))
    }

    /// A small number, often negative, so that cases are met.
    fn case_of(&mut self, ty: &Type) -> i128 {
        match ty {
            Type::Int(1) => *self.rng.pick(&[0, 1, -1]),
            _ if self.rng.below(1000) < self.risk => 1 << 62,
            _ if self.rng.chance(600) => *self.rng.pick(&[0, 1, 2, 3, -1, -2, 7]),
            Type::Int(width) => self.integer_of(*width),
            _ => 0,
        }
    }
}

fn named_phi(inst: &Inst) -> Option<(String, Type)> {
    let InstKind::Phi { ty, .. } = &inst.kind else { return None };
    Some((inst.dest.clone()?, ty.clone()))
}
