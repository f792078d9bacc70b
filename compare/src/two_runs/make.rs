//! Random functions that run, one to a book or some that call each other: well typed, every operand set before it is read, loops
//! that end or not. A small share of operands and instructions is wrong on purpose, so that runs stop too.
use super::world::Shape;
use crate::book::*;
use crate::rng::Rng;
use flow::Flow;
use std::collections::{BTreeMap, BTreeSet};

mod calls;
mod edges;
mod faults;
mod flow;
mod insts;
mod operands;

/// A book, and the shapes of the syscalls that it calls, by printed name.
pub struct Made {
    pub book: Book,
    pub shapes: BTreeMap<String, Shape>,
}

/// A parameter or result that may be read.
pub struct Local {
    pub name: String,
    pub ty: Type,
    /// None for a parameter.
    pub block: Option<usize>,
}

pub struct Maker {
    pub rng: Rng,
    /// How many operands in a thousand are wrong on purpose.
    pub risk: usize,
    pub names: Vec<String>,
    pub structs: Vec<(String, StructBody)>,
    /// The name of the function that is made.
    pub own: String,
    /// Those of all functions that may be called.
    pub functions: Vec<String>,
    pub globals: Vec<String>,
    pub shapes: BTreeMap<String, Shape>,
    pub locals: Vec<Local>,
    /// Results of cmpxchg, which only extractvalue reads; the type is that of the value found.
    pub pairs: Vec<Local>,
    /// The blocks whose results are set.
    pub set: Vec<usize>,
    pub block: usize,
    pub in_loop: bool,
    fresh: usize,
    /// Names of parameters, blocks and results in the functions before.
    earlier: Vec<String>,
    /// Those of the function that is made.
    taken: BTreeSet<String>,
}

/// Of a thousand books so many have several functions.
const SEVERAL: usize = 400;

/// The book of this index.
pub fn make(seed: u64, index: u64) -> Made {
    let mut rng = Rng::new(seed ^ 0x7275_6e73, index);
    let risk = if rng.chance(250) { rng.range(2, 30) } else { 0 };
    let mut maker = Maker {
        rng,
        risk,
        names: vec![],
        structs: vec![],
        own: String::new(),
        functions: vec![],
        globals: vec![],
        shapes: BTreeMap::new(),
        locals: vec![],
        pairs: vec![],
        set: vec![],
        block: 0,
        in_loop: false,
        fresh: 0,
        earlier: vec![],
        taken: BTreeSet::new(),
    };
    let count = if maker.rng.chance(SEVERAL) { maker.rng.range(2, 5) } else { 1 };
    maker.outside(count);
    let functions = (0..count).map(|place| maker.function(place)).collect();
    maker.finish(functions)
}

impl Maker {
    pub fn note(&mut self, name: String) -> String {
        self.names.push(name.clone());
        name
    }

    /// A new name; no two become equal under `sanitize`, since each has its number at the end.
    fn name(&mut self, hints: &[&str]) -> String {
        self.fresh += 1;
        let hint = *self.rng.pick(hints);
        self.note(format!("{hint}{}", self.fresh))
    }

    /// A name of a parameter, block or result: often one that another function has for something.
    fn inner_name(&mut self, hints: &[&str]) -> String {
        let known = if self.earlier.is_empty() || self.rng.chance(400) { None } else { Some(self.rng.pick(&self.earlier).clone()) };
        let name = known.filter(|name| !self.taken.contains(name)).unwrap_or_else(|| self.name(hints));
        self.taken.insert(name.clone());
        name
    }

    /// What the functions may name: themselves, structs, functions, globals, syscalls.
    fn outside(&mut self, count: usize) {
        self.functions = (0..count).map(|_| self.name(&["f", "act.", "scene ", "dějství"])).collect();
        for _ in 0..self.rng.below(3) {
            let name = self.name(&["s", "struct.", "část"]);
            let body = self.body(1);
            self.structs.push((name, body));
        }
        for hints in [&["g", "data.", "függöny"], &["go", "x.with.overflow.y", "ő.with.overflow.\u{85}"]] {
            let name = self.name(hints);
            self.globals.push(name);
        }
        self.functions.push(self.globals[1].clone());
        for _ in 0..2 {
            let name = self.name(&["__uvm_put", "__uvm_take a", "__uvm_", "__uvm_řekni"]);
            let shape = Shape { args: self.rng.below(4), replies: self.rng.chance(500) };
            self.shapes.insert(name["__uvm_".len()..].to_string(), shape);
        }
    }

    fn function(&mut self, place: usize) -> Function {
        self.own = self.functions[place].clone();
        self.locals.clear();
        self.pairs.clear();
        self.earlier.extend(std::mem::take(&mut self.taken));
        let ret_ty = self.result_type();
        let params = (0..self.rng.range(1, 4)).map(|_| self.param()).collect();
        let count = if self.rng.below(5000) < self.risk { 0 } else { self.rng.range(2, 8) };
        let labels: Vec<String> = (0..count).map(|_| self.inner_name(&["b", "for.", "if-", "ž", "€😀"])).collect();
        let flow = Flow::new(&mut self.rng, count);

        let mut blocks: Vec<Option<BasicBlock>> = (0..count).map(|_| None).collect();
        let mut counters = BTreeMap::new();
        for block in flow.order() {
            self.block = block;
            self.set = flow.dominators(block);
            self.in_loop = flow.in_loop(block);
            let mut insts = self.phis(&flow, block, &mut counters);
            if block == 0 {
                self.fixed_places(&mut insts);
            }
            for _ in 0..self.rng.below(5) {
                self.inst(&mut insts);
            }
            if self.rng.below(1000) < self.risk {
                insts.push(self.fault());
            }
            let term = self.term(&flow, &labels, &ret_ty, &counters, &mut insts);
            blocks[block] = Some(BasicBlock { label: labels[block].clone(), insts, term });
        }
        let mut blocks: Vec<BasicBlock> = blocks.into_iter().flatten().collect();
        self.fill_phis(&flow, &labels, &counters, &mut blocks);
        Function { name: self.own.clone(), ret_ty, params, varargs: false, linkage: Linkage::External, blocks }
    }

    fn param(&mut self) -> Param {
        let ty = self.param_type();
        if self.rng.chance(30) {
            return Param { ty, name: None };
        }
        let name = self.inner_name(&["p", "p.", "č"]);
        self.locals.push(Local { name: name.clone(), ty: ty.clone(), block: None });
        Param { ty, name: Some(name) }
    }

    fn new_result(&mut self) -> String {
        self.inner_name(&["v", "v", "v", "v.", "v-", "ű"])
    }

    pub fn result(&mut self, ty: Type) -> Option<String> {
        let name = self.new_result();
        self.locals.push(Local { name: name.clone(), ty, block: Some(self.block) });
        Some(name)
    }

    pub fn pair(&mut self, ty: Type) -> Option<String> {
        let name = self.new_result();
        self.pairs.push(Local { name: name.clone(), ty, block: Some(self.block) });
        Some(name)
    }

    /// Marks and the list of names.
    fn finish(mut self, functions: Vec<Function>) -> Made {
        self.names.sort_unstable();
        self.names.dedup();
        let mut marks = vec![(Mark::Defined, self.globals[1].clone())];
        if self.rng.chance(200) {
            marks.push((Mark::Defined, self.rng.pick(&functions).name.clone()));
        }
        let structs = self.structs.into_iter().map(|(name, body)| (name, Some(body))).collect();
        Made { book: Book { names: self.names, marks, structs, functions }, shapes: self.shapes }
    }

    // ---- types

    pub fn int_type(&mut self) -> Type {
        Type::Int(*self.rng.pick(&WIDTHS))
    }

    pub fn scalar(&mut self) -> Type {
        if self.rng.chance(150) { Type::Ptr } else { self.int_type() }
    }

    pub fn sized(&mut self, depth: usize) -> Type {
        if depth == 0 {
            return self.scalar();
        }
        match self.rng.below(8) {
            0..=2 => self.scalar(),
            3..=4 => {
                let (packed, len) = (self.rng.chance(200), self.rng.below(5) as u64);
                Type::Array { packed, len, elem: Box::new(self.sized(depth - 1)) }
            }
            5 if !self.structs.is_empty() => Type::NamedStruct(self.rng.pick(&self.structs).0.clone()),
            _ => Type::Struct(self.body(depth - 1)),
        }
    }

    fn body(&mut self, depth: usize) -> StructBody {
        let fields = (0..self.rng.below(4)).map(|_| self.sized(depth)).collect();
        StructBody { packed: self.rng.chance(300), fields }
    }
}
