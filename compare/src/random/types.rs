//! Types: with a size, without one, and any.
use super::Maker;
use crate::book::*;

impl Maker {
    pub fn int_type(&mut self) -> Type {
        Type::Int(*self.rng.pick(&WIDTHS))
    }

    pub fn scalar(&mut self) -> Type {
        match self.rng.below(10) {
            0..=1 => Type::Ptr,
            2..=4 => Type::Int(32),
            5..=6 => Type::Int(64),
            _ => self.int_type(),
        }
    }

    fn length(&mut self) -> u64 {
        match self.rng.below(20) {
            0..=1 => 0,
            2..=16 => self.rng.range(1, 8) as u64,
            17..=18 => self.rng.range(9, 300) as u64,
            _ => 1 << self.rng.below(16),
        }
    }

    /// A type that has a size.
    pub fn sized(&mut self, depth: usize) -> Type {
        if depth == 0 {
            return self.scalar();
        }
        match self.rng.below(10) {
            0..=3 => self.scalar(),
            4..=5 => Type::Array { packed: false, len: self.length(), elem: Box::new(self.sized(depth - 1)) },
            6 => Type::Array { packed: true, len: self.length(), elem: Box::new(self.sized(depth - 1)) },
            7 => Type::Struct(self.body(depth - 1)),
            _ => match self.named_sized() {
                Some(name) => Type::NamedStruct(name),
                None => Type::Struct(self.body(depth - 1)),
            },
        }
    }

    pub fn body(&mut self, depth: usize) -> StructBody {
        let count = self.rng.below(5);
        let fields = (0..count).map(|_| if self.rng.chance(20) { Type::Void } else { self.sized(depth) }).collect();
        StructBody { packed: self.rng.chance(300), fields }
    }

    pub fn aggregate(&mut self) -> Type {
        loop {
            let ty = self.sized(2);
            if !matches!(ty, Type::Int(_) | Type::Ptr) {
                return ty;
            }
        }
    }

    fn named_sized(&mut self) -> Option<String> {
        let sized = |(_, body): &&(String, Option<StructBody>)| body.is_some();
        let count = self.structs.iter().filter(sized).count();
        if count == 0 {
            return None;
        }
        self.structs.iter().filter(sized).nth(self.rng.below(count)).map(|(name, _)| name.clone())
    }

    pub fn add_struct(&mut self, hint: &str, body: Option<StructBody>) -> String {
        let mut name = self.spelling(hint);
        while self.structs.iter().any(|(other, _)| *other == name) {
            name.push('x');
        }
        self.structs.push((name.clone(), body));
        self.note(&name)
    }

    pub fn set_struct(&mut self, name: &str, body: StructBody) {
        let place = self.structs.iter().position(|(other, _)| other == name).unwrap();
        self.structs[place].1 = Some(body);
    }

    /// A type without a size.
    fn sizeless(&mut self) -> Type {
        match self.rng.below(6) {
            0 => func_type(),
            1 => Type::Label,
            2 => Type::Metadata,
            3..=4 => Type::NamedStruct(self.add_struct("opaque", None)),
            _ => {
                let name = format!("undefined{}", self.structs.len());
                Type::NamedStruct(self.note(&name))
            }
        }
    }

    /// A type without a size, or one with such a part.
    pub fn unmeasurable(&mut self) -> Type {
        let part = self.sizeless();
        match self.rng.below(7) {
            0 => Type::Array { packed: self.rng.chance(300), len: self.length(), elem: Box::new(part) },
            1 => {
                let mut body = self.body(1);
                let at = self.rng.below(body.fields.len() + 1);
                body.fields.insert(at, part);
                Type::Struct(body)
            }
            2 => {
                let body = StructBody { packed: self.rng.chance(500), fields: vec![self.scalar(), part] };
                Type::NamedStruct(self.add_struct("s", Some(body)))
            }
            _ => part,
        }
    }

    pub fn any_type(&mut self) -> Type {
        match self.rng.below(8) {
            0 => Type::Void,
            1..=2 => self.unmeasurable(),
            3..=5 => self.aggregate(),
            _ => self.scalar(),
        }
    }

    /// A type of exactly 8 bytes.
    pub fn eight_bytes(&mut self) -> Type {
        if !self.loose || self.rng.chance(600) {
            return if self.rng.chance(300) { Type::Ptr } else { Type::Int(64) };
        }
        let byte = Type::Int(8);
        match self.rng.below(3) {
            0 => Type::Array { packed: false, len: 8, elem: Box::new(byte) },
            1 => Type::Struct(StructBody { packed: false, fields: vec![byte, Type::Int(32)] }),
            _ => Type::Struct(StructBody { packed: true, fields: vec![Type::Ptr, Type::Void] }),
        }
    }

    /// A type of 1, 2, 4 or 8 bytes that is no integer or pointer.
    pub fn small_aggregate(&mut self) -> Type {
        let elem = Box::new(self.int_type());
        match self.rng.below(3) {
            0 => Type::Array { packed: self.rng.chance(500), len: 1, elem },
            1 => Type::Struct(StructBody { packed: self.rng.chance(500), fields: vec![*elem] }),
            _ => Type::Array { packed: false, len: 4, elem: Box::new(Type::Int(8)) },
        }
    }
}
