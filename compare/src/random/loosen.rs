//! Changes that make a function loose, or wild.
use super::{leading_phis, Maker};
use crate::book::*;
use crate::oracle::is_reserved;
use crate::visit;

impl Maker {
    /// Changes that are ill-formed by the manual, most of which the Rust accepts.
    pub fn loosen(&mut self, function: &mut Function) {
        for _ in 0..self.rng.below(3) {
            self.use_early(function);
        }
        if self.rng.chance(250) {
            self.join_results(function);
        }
        if self.rng.chance(250) {
            self.join_places(function);
        }
        if self.rng.chance(120) {
            self.join_blocks(function);
        }
        if self.rng.chance(250) {
            self.late_phi(function);
        }
        if self.rng.chance(150) && !function.params.is_empty() {
            let name = if self.rng.chance(500) { self.any_local() } else { function.params[0].name.clone() };
            let place = self.rng.below(function.params.len());
            function.params[place].name = name;
        }
    }

    /// An operand becomes some local, which may be set later or never.
    fn use_early(&mut self, function: &mut Function) {
        let Some(name) = self.any_local() else { return };
        visit::one_of(&mut self.rng, function, visit::each_value, |value| *value = Value::Local(name.clone()));
    }

    /// Two results, or a result and a parameter, get one name.
    fn join_results(&mut self, function: &mut Function) {
        if let (Some(old), Some(new)) = (self.any_local(), self.any_local()) {
            rename(function, &old, &new);
        }
    }

    /// Two stack places get one name, a fixed and a varying one perhaps.
    fn join_places(&mut self, function: &mut Function) {
        let mut places = vec![];
        visit::each_inst(function, &mut |inst| match (&inst.kind, &inst.dest) {
            (InstKind::Alloca { .. }, Some(name)) => places.push(name.clone()),
            _ => {}
        });
        if places.len() > 1 {
            self.rng.shuffle(&mut places);
            rename(function, &places[0], &places[1]);
        }
    }

    /// Two blocks get one name.
    fn join_blocks(&mut self, function: &mut Function) {
        if function.blocks.len() < 2 {
            return;
        }
        let old = function.blocks[self.rng.below(function.blocks.len())].label.clone();
        let new = function.blocks[self.rng.below(function.blocks.len())].label.clone();
        visit::each_label(function, &mut |label| {
            if *label == old {
                *label = new.clone();
            }
        });
    }

    /// A phi behind other instructions: nobody reads what it holds.
    fn late_phi(&mut self, function: &mut Function) {
        if function.blocks.is_empty() {
            return;
        }
        let ty = if self.rng.chance(500) { self.any_type() } else { self.scalar() };
        let value = if self.rng.chance(300) { Value::Local(self.new_local("never")) } else { self.any_value() };
        let block = function.blocks[self.rng.below(function.blocks.len())].label.clone();
        let dest = if self.rng.chance(800) { self.result(ty.clone()) } else { None };
        let phi = Inst { dest, kind: InstKind::Phi { ty, incoming: vec![(value, block)] } };
        let place = self.rng.below(function.blocks.len());
        let insts = &mut function.blocks[place].insts;
        let at = (leading_phis(insts) + 1 + self.rng.below(4)).min(insts.len());
        insts.insert(at, phi);
    }

    /// One part of the function becomes anything of its sort.
    pub fn change_anything(&mut self, function: &mut Function) {
        match self.rng.below(5) {
            0 => {
                let value = if self.rng.chance(300) { Value::Local(self.new_local("gone")) } else { self.any_value() };
                visit::one_of(&mut self.rng, function, visit::each_value, |old| *old = value.clone());
                // A global that became a callee may be forbidden, an integer index too large: keep the book sound.
                self.keep_sound(function);
            }
            1..=2 => {
                let ty = self.any_type();
                visit::one_of(&mut self.rng, function, visit::each_type, |old| *old = ty.clone());
            }
            3 => {
                let name = if self.rng.chance(500) { None } else { self.any_local() };
                visit::one_of(&mut self.rng, function, visit::each_inst, |inst| inst.dest = name.clone());
            }
            _ => {
                let to = match function.blocks.len() {
                    0 => return,
                    n if self.rng.chance(700) => function.blocks[self.rng.below(n)].label.clone(),
                    _ => self.new_label("nowhere"),
                };
                visit::one_of(&mut self.rng, function, visit::each_label, |label| *label = to.clone());
            }
        }
    }

    fn keep_sound(&mut self, function: &mut Function) {
        visit::each_inst(function, &mut |inst| match &mut inst.kind {
            InstKind::Call { callee, .. } => {
                if matches!(callee, Value::Global(name) if name.starts_with("llvm.") || is_reserved(name)) {
                    *callee = Value::Null;
                }
            }
            InstKind::GetElementPtr { indices, .. } => {
                for index in indices {
                    if let Value::Int(number) = &mut index.val {
                        *number = *number as i32 as i128;
                    }
                }
            }
            _ => {}
        });
    }
}

/// A result and all its uses get another name.
fn rename(function: &mut Function, old: &str, new: &str) {
    visit::each_inst(function, &mut |inst| {
        if inst.dest.as_deref() == Some(old) {
            inst.dest = Some(new.to_string());
        }
    });
    visit::each_value(function, &mut |value| {
        if matches!(value, Value::Local(name) if name == old) {
            *value = Value::Local(new.to_string());
        }
    });
}
