//! The kinds of a book's entries: document 01, 'The book'.

pub const END: u64 = 0;
pub const DEFINED: u64 = 1;
pub const RESERVED: u64 = 2;
pub const NAMED_STRUCT: u64 = 3;
pub const OPAQUE: u64 = 4;
pub const FUNCTION: u64 = 5;
pub const PARAM: u64 = 6;
pub const BLOCK: u64 = 7;
pub const VOID: u64 = 10;
pub const INT: u64 = 11;
pub const PTR: u64 = 12;
pub const ARRAY: u64 = 13;
pub const PACKED_ARRAY: u64 = 14;
pub const NAMED: u64 = 15;
pub const STRUCT: u64 = 16;
pub const PACKED_STRUCT: u64 = 17;
pub const FUNC_TYPE: u64 = 18;
pub const LABEL: u64 = 19;
pub const METADATA: u64 = 20;
pub const ABSENT: u64 = 21;
pub const NUMBER: u64 = 22;
pub const TARGET: u64 = 23;
pub const LOCAL: u64 = 30;
pub const GLOBAL: u64 = 31;
pub const INTEGER: u64 = 32;
pub const NULL: u64 = 33;
pub const UNDEF: u64 = 34;
pub const POISON: u64 = 35;
pub const ZERO_INIT: u64 = 36;
pub const OTHER: u64 = 37;
/// 13 binary operations, 6 conversions and 10 predicates from here on, in the order of [`BinOp`](crate::ir::BinOp),
/// [`ConvOp`](crate::ir::ConvOp) and [`ICmpPred`](crate::ir::ICmpPred).
pub const BIN: u64 = 40;
pub const CONV: u64 = 53;
pub const ICMP: u64 = 60;
pub const SELECT: u64 = 70;
pub const LOAD: u64 = 71;
pub const STORE: u64 = 72;
pub const ALLOCA: u64 = 73;
pub const GEP: u64 = 74;
pub const PHI: u64 = 75;
pub const CALL: u64 = 76;
pub const FREEZE: u64 = 77;
pub const ATOMIC_LOAD: u64 = 78;
pub const ATOMIC_STORE: u64 = 79;
pub const CMPXCHG: u64 = 80;
pub const EXTRACT_VALUE: u64 = 81;
pub const FENCE: u64 = 82;
pub const RET: u64 = 90;
pub const BR: u64 = 91;
pub const SWITCH: u64 = 92;
pub const UNREACHABLE: u64 = 93;

/// How an entry's word names something: not at all, by a name's number, or by that + 1 with 0 for none.
#[derive(Clone, Copy, Debug, PartialEq, Eq)]
pub enum Naming {
    Nothing,
    Name,
    MaybeName,
}

pub fn naming(kind: u64) -> Naming {
    match kind {
        DEFINED | RESERVED | NAMED_STRUCT | FUNCTION | BLOCK | NAMED | TARGET | LOCAL | GLOBAL => Naming::Name,
        PARAM | BIN..=FENCE => Naming::MaybeName,
        _ => Naming::Nothing,
    }
}
