//! Random books. A seed and an index always give the same one.
//!
//! A book has one function or several that call each other. Most functions are well typed. Some are loose: operands of any type,
//! names used twice, phis in odd places, which the Rust accepts or not. Some are spoiled on purpose (spoil.rs), so that every
//! refusal comes often.
use crate::book::*;
use crate::hash::Set;
use crate::oracle::is_reserved;
use crate::rng::Rng;

mod function;
mod insts;
mod loosen;
mod names;
mod respell;
mod spoil;
mod types;
mod values;

/// How many books in a thousand are of which sort; the rest is well typed.
const LOOSE: usize = 200;
const SPOILED: usize = 330;
const WILD: usize = 60;

/// How many in a hundred thousand have more than 65,000 slots. They take a hundred times as long as the others.
const MANY_SLOTS: usize = 400;

/// How many of the usual books in a thousand have several functions.
const SEVERAL: usize = 300;

/// The most functions that a book is given.
pub const MOST_FUNCTIONS: usize = 12;

/// The book of this index, its names perhaps in letters outside ASCII. Without `large` none has tens of thousands of entries.
pub fn book(seed: u64, index: u64, large: bool) -> Book {
    respelled(plain(seed, index, large), seed, index)
}

/// The same book with names in ASCII.
pub fn plain(seed: u64, index: u64, large: bool) -> Book {
    // Drawn apart, so that a book of one function is what it was before there were others.
    let mut rng = Rng::new(seed ^ 0x7069_6563, index);
    let count = if rng.chance(SEVERAL) { several(&mut rng) } else { 1 };
    Maker::new(Rng::new(seed, index)).book(count, large)
}

/// A book of several functions most of the time, its names perhaps in letters outside ASCII; of at most so many.
pub fn piece(seed: u64, index: u64, most: usize) -> Book {
    respelled(plain_piece(seed, index, most), seed, index)
}

/// The same book with names in ASCII.
pub fn plain_piece(seed: u64, index: u64, most: usize) -> Book {
    let mut rng = Rng::new(seed ^ 0x6d61_6e79, index);
    let count = if rng.chance(900) { several(&mut rng) } else { 1 };
    Maker::new(rng).book(count.min(most), false)
}

fn several(rng: &mut Rng) -> usize {
    match rng.below(20) {
        0..=7 => 2,
        8..=14 => rng.range(3, 4),
        _ => rng.range(5, MOST_FUNCTIONS),
    }
}

fn respelled(book: Book, seed: u64, index: u64) -> Book {
    respell::respelled(book, &mut Rng::new(seed ^ 0x6c65_7474, index))
}

/// What belongs to one function alone.
#[derive(Default)]
struct Scope {
    /// Parameters and results so far.
    locals: Vec<(String, Type)>,
    local_names: Set<String>,
    labels: Set<String>,
}

pub struct Maker {
    pub rng: Rng,
    /// Any operand may stand anywhere.
    loose: bool,
    /// All names so far, with repetitions.
    names: Vec<String>,
    structs: Vec<(String, Option<StructBody>)>,
    /// The names of the book's functions, in order.
    functions: Vec<String>,
    /// The name of the function that is made or changed.
    own: String,
    /// Other functions that may be called.
    defined: Vec<String>,
    /// Names that stand for global addresses.
    globals: Vec<String>,
    /// That of the function that is made or changed.
    scope: Scope,
    /// How many names were made.
    fresh: usize,
}

impl Maker {
    fn new(rng: Rng) -> Maker {
        Maker {
            rng,
            loose: false,
            names: vec![],
            structs: vec![],
            functions: vec![],
            own: String::new(),
            defined: vec![],
            globals: vec![],
            scope: Scope::default(),
            fresh: 0,
        }
    }

    /// A book of so many functions.
    fn book(mut self, count: usize, large: bool) -> Book {
        let sort = self.rng.below(1000);
        self.loose = sort < LOOSE || self.rng.chance(150);
        self.structs();
        self.globals();
        let mut made = self.functions(count);
        match sort.checked_sub(LOOSE) {
            Some(sort) if sort < SPOILED => self.spoil(&mut made),
            Some(sort) if sort < SPOILED + WILD => {
                for _ in 0..self.rng.range(1, 6) {
                    self.change_one(&mut made, Maker::change_anything);
                }
            }
            _ => {}
        }
        if large && self.rng.below(100_000) < MANY_SLOTS {
            self.change_one(&mut made, spoil::many_slots);
        }
        self.finish(made.into_iter().map(|(function, _)| function).collect())
    }

    /// The functions, each with its scope.
    fn functions(&mut self, count: usize) -> Vec<(Function, Scope)> {
        for _ in 0..count {
            self.name_function();
        }
        let begun = self.fresh;
        let mut made = vec![];
        for place in 0..count {
            // Counted from the same number on, most parameters, blocks and results have names that another function has too.
            if place > 0 && self.rng.chance(600) {
                self.fresh = begun;
            }
            let mut function = self.function(place);
            if self.loose {
                self.loosen(&mut function);
            }
            made.push((function, std::mem::take(&mut self.scope)));
        }
        made
    }

    /// Changes one of the functions; what the change makes belongs to that one.
    fn change_one(&mut self, made: &mut [(Function, Scope)], change: impl FnOnce(&mut Maker, &mut Function)) {
        let place = if made.len() > 1 { self.rng.below(made.len()) } else { 0 };
        self.change_at(made, place, change);
    }

    fn change_at(&mut self, made: &mut [(Function, Scope)], place: usize, change: impl FnOnce(&mut Maker, &mut Function)) {
        let (function, scope) = &mut made[place];
        self.own = function.name.clone();
        std::mem::swap(&mut self.scope, scope);
        change(self, function);
        std::mem::swap(&mut self.scope, scope);
    }

    /// One fault or several, in any functions; where there are two functions, now and then an instruction's in one and a frame's in a later one.
    fn spoil(&mut self, made: &mut [(Function, Scope)]) {
        let count = made.len();
        if count > 1 && self.rng.chance(250) {
            let later = self.rng.range(1, count - 1);
            let earlier = self.rng.below(later);
            self.change_at(made, earlier, spoil::spoil_instruction);
            self.change_at(made, later, spoil::spoil_frame);
            return;
        }
        let times = if self.rng.chance(if count == 1 { 750 } else { 450 }) { 1 } else { self.rng.range(2, 4) };
        for _ in 0..times {
            self.change_one(made, spoil::spoil);
        }
    }

    fn structs(&mut self) {
        for _ in 0..self.rng.below(4) {
            let body = self.body(2);
            self.add_struct("s", Some(body));
        }
        if self.rng.chance(100) {
            self.add_struct("s", None);
        }
    }

    fn globals(&mut self) {
        for _ in 0..self.rng.range(1, 3) {
            let name = self.spelling("g");
            let name = self.note(&name);
            self.globals.push(name);
        }
        for _ in 0..self.rng.range(1, 2) {
            let name = self.spelling("go");
            let name = self.note(&name);
            self.globals.push(name.clone());
            self.defined.push(name);
        }
    }

    /// Marks and the list of names.
    fn finish(mut self, functions: Vec<Function>) -> Book {
        let mut names = self.names;
        names.sort_unstable();
        names.dedup();

        let mut marks: Vec<(Mark, String)> = vec![];
        for name in &names {
            if is_reserved(name) {
                marks.push((Mark::Reserved, name.clone()));
            } else if self.defined.contains(name) || self.rng.chance(30) {
                marks.push((Mark::Defined, name.clone()));
            } else if functions.len() > 1 && self.functions.contains(name) {
                // Most have no mark. A call of one that is reserved is a 3.
                match self.rng.below(200) {
                    0 => marks.push((Mark::Reserved, name.clone())),
                    1..=20 => marks.push((Mark::Defined, name.clone())),
                    _ => {}
                }
            }
        }
        self.rng.shuffle(&mut marks);
        self.rng.shuffle(&mut self.structs);
        Book { names, marks, structs: self.structs, functions }
    }
}

pub fn leading_phis(insts: &[Inst]) -> usize {
    insts.iter().take_while(|inst| matches!(inst.kind, InstKind::Phi { .. })).count()
}
