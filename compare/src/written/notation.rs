//! A book in words, one for each entry:
//!
//!     def:g res:g struct:s opaque func:f param:p param block:b
//!     void i32 ptr [3 (array) <3 (packed array) %%s (named) { <{ functype label metadata
//!     - (absent) #4 (number) :b (block)   %x @g 7 -7 null undef poison zero other
//!     q=add or add, and so every instruction and terminator by the manual's word
//!     } or . (the end of a list)
use crate::book::{kind, Slices};

/// Kinds 40 to 82 and 90 to 93, in their order.
const INSTS: [&str; 43] = [
    "add", "sub", "mul", "udiv", "sdiv", "urem", "srem", "and", "or", "xor", "shl", "lshr", "ashr", "trunc", "zext", "sext",
    "ptrtoint", "inttoptr", "bitcast", "", "eq", "ne", "ugt", "uge", "ult", "ule", "sgt", "sge", "slt", "sle", "select", "load",
    "store", "alloca", "getelementptr", "phi", "call", "freeze", "atomicload", "atomicstore", "cmpxchg", "extractvalue", "fence",
];
const TERMS: [&str; 4] = ["ret", "br", "switch", "unreachable"];

/// Words that are one entry with the word 0.
const PLAIN: [(&str, u64); 17] = [
    ("opaque", kind::OPAQUE), ("param", kind::PARAM), ("void", kind::VOID), ("ptr", kind::PTR), ("{", kind::STRUCT),
    ("<{", kind::PACKED_STRUCT), ("functype", kind::FUNC_TYPE), ("label", kind::LABEL), ("metadata", kind::METADATA),
    ("-", kind::ABSENT), ("null", kind::NULL), ("undef", kind::UNDEF), ("poison", kind::POISON), ("zero", kind::ZERO_INIT),
    ("other", kind::OTHER), ("}", kind::END), (".", kind::END),
];

/// Beginnings of words that go on with a name; how much more than its number the entry's word is.
const NAMED: [(&str, u64, u64); 10] = [
    ("def:", kind::DEFINED, 0), ("res:", kind::RESERVED, 0), ("struct:", kind::NAMED_STRUCT, 0), ("func:", kind::FUNCTION, 0),
    ("param:", kind::PARAM, 1), ("block:", kind::BLOCK, 0), ("%%", kind::NAMED, 0), ("%", kind::LOCAL, 0), ("@", kind::GLOBAL, 0),
    (":", kind::TARGET, 0),
];

/// Beginnings of words that go on with a number.
const NUMBERED: [(&str, u64); 4] =
    [("i", kind::INT), ("[", kind::ARRAY), ("<", kind::PACKED_ARRAY), ("#", kind::NUMBER)];

/// An entry whose word may be a name's number, and more.
enum Entry<'a> {
    Word(u64, u64),
    Name(u64, &'a str, u64),
}

pub fn read(text: &str) -> Result<Slices, String> {
    let entries = text.split_whitespace().map(entry).collect::<Result<Vec<_>, _>>()?;
    let mut names: Vec<&str> = entries.iter().filter_map(|entry| if let Entry::Name(_, name, _) = entry { Some(*name) } else { None }).collect();
    names.sort_unstable();
    names.dedup();
    let place = |name: &str| names.binary_search(&name).unwrap() as u64;
    let numbers: Vec<(u64, u64)> = entries
        .iter()
        .map(|entry| match entry {
            Entry::Word(kind, word) => (*kind, *word),
            Entry::Name(kind, name, more) => (*kind, place(name) + more),
        })
        .collect();
    Ok(Slices::new(&numbers, &names))
}

fn entry(word: &str) -> Result<Entry<'_>, String> {
    if let Some((_, kind)) = PLAIN.iter().find(|(plain, _)| *plain == word) {
        return Ok(Entry::Word(*kind, 0));
    }
    if let Ok(number) = word.parse::<i128>() {
        return Ok(Entry::Word(kind::INTEGER, number as u64));
    }
    if let Some(kind) = opcode(word) {
        return Ok(Entry::Word(kind, 0));
    }
    if let Some((begin, kind, more)) = NAMED.iter().find(|(begin, ..)| word.starts_with(begin)) {
        return Ok(Entry::Name(*kind, &word[begin.len()..], *more));
    }
    if let Some((name, inst)) = word.split_once('=') {
        return opcode(inst).map(|kind| Entry::Name(kind, name, 1)).ok_or_else(|| format!("no instruction {inst}"));
    }
    NUMBERED
        .iter()
        .find_map(|(begin, kind)| Some(Entry::Word(*kind, word.strip_prefix(begin)?.parse().ok()?)))
        .ok_or_else(|| format!("no word of the notation: {word}"))
}

fn opcode(word: &str) -> Option<u64> {
    let inst = INSTS.iter().position(|inst| *inst == word && !word.is_empty()).map(|place| kind::BIN + place as u64);
    inst.or_else(|| TERMS.iter().position(|term| *term == word).map(|place| kind::RET + place as u64))
}
