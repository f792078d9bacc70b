//! Names and their spelling.
use super::Maker;
use crate::book::Type;

/// Spellings that matter somewhere, or that print alike.
pub const SPELLINGS: &[&str] = &[
    "llvm.x", "llvm.", "llvm", "llvm.umul.with.overflow.i32", "x.with.overflow.y", ".with.overflow.", "with.overflow.",
    "__uvm_print", "__uvm_", "__uvm", "__uvm_memcmp", "__uvm_a b", "__uvm_x.with.overflow.y", "bcmp", "memcmp", "bcmp.1",
    "sinf", "pow", "sqrt", "trunc", "roundf", "fmin", "sinf.1", "0", "7", "00", "18446744073709551615", "-1", "main", "entry",
    "aria.1", "aria_1", "aria 1", "a;", "a:", "push 1;", "# a", " ", "  ", "!", "~", "\"a\"", "%a", "@a", "_", "__",
    "__br_false_0", "__sel_done_1", "__sw_case_2", "x.addr", "for.body", "Aria", "aria", "0x10",
];

impl Maker {
    /// Every name of the book comes through here.
    pub fn note(&mut self, name: &str) -> String {
        self.names.push(name.to_string());
        name.to_string()
    }

    /// A name, perhaps one that the book has for something else.
    pub fn spelling(&mut self, hint: &str) -> String {
        self.fresh += 1;
        match self.rng.below(20) {
            0..=10 => format!("{hint}{}", self.fresh),
            11..=12 => format!("{}", self.fresh),
            13 => format!("{hint}.{}", self.fresh),
            14 => hint.to_string(),
            15 => (0..self.rng.range(1, 6)).map(|_| self.rng.range(32, 126) as u8 as char).collect(),
            16 if !self.names.is_empty() => self.rng.pick(&self.names).clone(),
            _ => self.rng.pick(SPELLINGS).to_string(),
        }
    }

    /// A name that no parameter or result has yet.
    pub fn new_local(&mut self, hint: &str) -> String {
        let mut name = self.spelling(hint);
        while !self.scope.local_names.insert(name.clone()) {
            name.push(self.letter());
        }
        self.note(&name)
    }

    /// A name that no block has yet.
    pub fn new_label(&mut self, hint: &str) -> String {
        let mut name = self.spelling(hint);
        while !self.scope.labels.insert(name.clone()) {
            name.push(self.letter());
        }
        self.note(&name)
    }

    pub fn letter(&mut self) -> char {
        self.rng.range(b'a' as usize, b'z' as usize) as u8 as char
    }

    pub fn result(&mut self, ty: Type) -> Option<String> {
        let name = self.new_local("r");
        self.scope.locals.push((name.clone(), ty));
        Some(name)
    }
}
