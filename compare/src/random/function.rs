//! Functions: parameters, blocks, how they end, and phis.
use super::Maker;
use crate::book::*;

/// How a block will end; values come later.
enum Ending {
    Ret,
    Br(usize),
    CondBr(usize, usize),
    Switch(usize, Vec<usize>),
    Unreachable,
}

impl Ending {
    fn goes_to(&self, block: usize) -> bool {
        match self {
            Ending::Ret | Ending::Unreachable => false,
            Ending::Br(to) => *to == block,
            Ending::CondBr(yes, no) => *yes == block || *no == block,
            Ending::Switch(default, cases) => *default == block || cases.contains(&block),
        }
    }
}

impl Maker {
    /// The name of the next function, which no other has.
    pub fn name_function(&mut self) {
        let mut name = self.spelling("f");
        while self.functions.contains(&name) {
            name.push(self.letter());
        }
        let name = self.note(&name);
        self.globals.push(name.clone());
        self.functions.push(name);
    }

    /// The function of this place; the more there are, the smaller they are.
    pub fn function(&mut self, place: usize) -> Function {
        let name = self.functions[place].clone();
        self.own = name.clone();
        let (most_blocks, most_insts) = match self.functions.len() {
            1 => (6, 11),
            2..=4 => (4, 8),
            _ => (3, 5),
        };
        let ret_ty = match self.rng.below(10) {
            0..=6 => self.scalar(),
            7..=8 => Type::Void,
            _ => self.any_type(),
        };
        let params = (0..self.rng.below(5)).map(|_| self.param()).collect();

        let count = if self.rng.chance(10) { 0 } else { self.rng.range(1, most_blocks) };
        let labels: Vec<String> = (0..count).map(|_| self.new_label("b")).collect();
        let endings: Vec<Ending> = (0..count).map(|block| self.ending(block, count)).collect();
        let mut blocks = vec![];
        for (place, label) in labels.iter().enumerate() {
            let mut insts = vec![];
            if endings.iter().any(|ending| ending.goes_to(place)) {
                for _ in 0..self.rng.below(4).saturating_sub(1) {
                    insts.push(self.phi());
                }
            }
            for _ in 0..self.rng.below(most_insts) {
                self.inst(&mut insts);
            }
            let term = self.term(&endings[place], &labels, &ret_ty);
            blocks.push(BasicBlock { label: label.clone(), insts, term });
        }
        self.fill_phis(&mut blocks, &labels, &endings);
        Function { name, ret_ty, params, varargs: false, linkage: Linkage::External, blocks }
    }

    fn param(&mut self) -> Param {
        let ty = if self.rng.chance(900) { self.scalar() } else { self.any_type() };
        if self.rng.chance(50) {
            return Param { ty, name: None };
        }
        let name = self.new_local("p");
        self.scope.locals.push((name.clone(), ty.clone()));
        Param { ty, name: Some(name) }
    }

    fn ending(&mut self, block: usize, count: usize) -> Ending {
        let sort = if block + 1 == count && self.rng.chance(700) { 0 } else { self.rng.below(20) };
        match sort {
            0..=3 => Ending::Ret,
            4..=9 => Ending::Br(self.rng.below(count)),
            10..=15 => Ending::CondBr(self.rng.below(count), self.rng.below(count)),
            16..=18 => {
                let cases = if self.rng.chance(20) { self.rng.range(5, 60) } else { self.rng.below(5) };
                Ending::Switch(self.rng.below(count), (0..cases).map(|_| self.rng.below(count)).collect())
            }
            _ => Ending::Unreachable,
        }
    }

    fn term(&mut self, ending: &Ending, labels: &[String], ret_ty: &Type) -> Terminator {
        let label = |block: &usize| labels[*block].clone();
        match ending {
            Ending::Ret => match ret_ty {
                Type::Int(_) | Type::Ptr => Terminator::Ret { val: Some(self.typed(ret_ty.clone())) },
                _ if self.loose && self.rng.chance(300) => {
                    let ty = self.scalar();
                    Terminator::Ret { val: Some(self.typed(ty)) }
                }
                _ => Terminator::Ret { val: None },
            },
            Ending::Br(to) => {
                let if_false = if self.loose && self.rng.chance(100) { Some(self.note("nobody")) } else { None };
                Terminator::Br { cond: None, if_true: label(to), if_false }
            }
            Ending::CondBr(yes, no) => {
                let cond = self.value(&Type::Int(1));
                Terminator::Br { cond: Some(cond), if_true: label(yes), if_false: Some(label(no)) }
            }
            Ending::Switch(default, cases) => {
                let ty = if self.loose && self.rng.chance(100) { Type::Ptr } else { self.int_type() };
                let width = if let Type::Int(width) = ty { width } else { 64 };
                let val = self.value(&ty);
                let any = self.loose;
                let cases = cases
                    .iter()
                    .map(|to| (if any { self.integer() } else { self.integer_of(width) }, label(to)))
                    .collect();
                Terminator::Switch { ty, val, default: label(default), cases }
            }
            Ending::Unreachable => Terminator::Unreachable,
        }
    }

    fn phi(&mut self) -> Inst {
        let ty = self.scalar();
        Inst { dest: self.result(ty.clone()), kind: InstKind::Phi { ty, incoming: vec![] } }
    }

    /// Gives every leading phi a value for each predecessor, and sometimes more.
    fn fill_phis(&mut self, blocks: &mut [BasicBlock], labels: &[String], endings: &[Ending]) {
        for (place, block) in blocks.iter_mut().enumerate() {
            for inst in &mut block.insts {
                let InstKind::Phi { ty, incoming } = &mut inst.kind else { break };
                for (from, ending) in endings.iter().enumerate() {
                    if ending.goes_to(place) {
                        incoming.push((self.value(ty), labels[from].clone()));
                    }
                }
                if self.rng.chance(100) {
                    let at = self.rng.below(incoming.len() + 1);
                    incoming.insert(at, (self.value(ty), self.rng.pick(labels).clone()));
                }
            }
        }
    }
}
