//! Books at the large limits, deep and wide ones, each with the answer of 0 to 4 that document 01 gives.
use crate::book::{kind, Lent, Slices};
use crate::check::{work_needed, MOST_ENTRIES, MOST_INDICES, MOST_LEVELS, MOST_NAMES};

pub struct Large {
    pub what: &'static str,
    /// 0 for a sound book.
    pub answer: u64,
    pub lent: Lent,
}

pub type Entries = Vec<(u64, u64)>;

const ENTRIES: usize = MOST_ENTRIES as usize;
const NAMES: usize = MOST_NAMES as usize;
const LEVELS: usize = MOST_LEVELS as usize;
const END: (u64, u64) = (kind::END, 0);
const VOID: (u64, u64) = (kind::VOID, 0);
const BYTE: (u64, u64) = (kind::INT, 8);

pub fn books() -> Vec<Large> {
    [counts(), marks(), types(), lists(), calls(), names(), functions()].into_iter().flatten().collect()
}

// ---- makers

fn names_of(numbers: impl Iterator<Item = usize>) -> Vec<u8> {
    numbers.flat_map(|number| format!("n{number:06}\n").into_bytes()).collect()
}

pub fn large(what: &'static str, answer: u64, entries: &[(u64, u64)], names: usize) -> Large {
    let mut book = vec![entries.len() as u64, names as u64];
    book.extend(entries.iter().map(|entry| entry.0));
    book.extend(entries.iter().map(|entry| entry.1));
    let lent = Lent { slices: Slices { book, names: names_of(0..names) }, counter: 0, work: work_needed(names) };
    Large { what, answer, lent }
}

/// `void` function 0 without parameters, with one block of these instructions and this terminator, and no other function.
pub fn function(insts: &[(u64, u64)], term: &[(u64, u64)]) -> Entries {
    [&[(kind::FUNCTION, 0), VOID, END, (kind::BLOCK, 0)], insts, term, &[END, END]].concat()
}

pub fn unreachable(insts: &[(u64, u64)]) -> Entries {
    function(insts, &[(kind::UNREACHABLE, 0)])
}

/// A book of exactly so many entries: a start, then the function, filled with fences.
fn filled(mut start: Entries, total: usize) -> Entries {
    let rest = unreachable(&[]).len();
    start.extend(unreachable(&vec![(kind::FENCE, 0); total - start.len() - rest]));
    start
}

/// A part as often as it fits a book beside so many other entries.
fn repeated(part: &[(u64, u64)], others: usize) -> Entries {
    part.repeat((ENTRIES - others) / part.len())
}

/// A type of so many levels.
pub fn arrays(levels: usize) -> Entries {
    let mut entries = vec![(kind::ARRAY, 1); levels - 1];
    entries.push(BYTE);
    entries
}

/// A struct within a struct, of so many levels, the innermost with these fields.
pub fn nested(levels: usize, fields: &[(u64, u64)]) -> Entries {
    [&vec![(kind::STRUCT, 0); levels], fields, &vec![END; levels]].concat()
}

// ---- books

fn counts() -> Vec<Large> {
    let add = |name: u64| [(kind::BIN, name + 1), (kind::INT, 32), (kind::LOCAL, name), (kind::INTEGER, 1)];
    let adds: Entries = (0..ENTRIES as u64 / 4 - 2).flat_map(|number| add(number % MOST_NAMES)).collect();
    let mut largest = unreachable(&adds);
    largest.insert(4, (kind::FENCE, 0));
    assert_eq!(largest.len(), ENTRIES);
    let mut short = large("131,072 names and a work slice one short", 4, &unreachable(&[]), NAMES);
    short.lent.work -= 1;
    vec![
        large("1,048,576 entries", 0, &filled(vec![], ENTRIES), 1),
        large("1,048,577 entries", 1, &filled(vec![], ENTRIES + 1), 1),
        large("131,072 names", 0, &unreachable(&[]), NAMES),
        large("131,073 names", 1, &unreachable(&[]), NAMES + 1),
        short,
        large("1,048,576 entries and 131,072 names", 0, &largest, NAMES),
    ]
}

fn marks() -> Vec<Large> {
    let each = |kind: u64| (0..MOST_NAMES).map(move |name| (kind, name));
    let then = |start: Entries| [start, unreachable(&[])].concat();
    let mixed: Entries = (0..MOST_NAMES).map(|name| (1 + name % 2, name * 77_777 % MOST_NAMES)).collect();
    let again = [each(kind::DEFINED).collect(), vec![(kind::RESERVED, MOST_NAMES - 1)]].concat();
    let structs: Entries = each(kind::NAMED_STRUCT).flat_map(|entry| [entry, (kind::OPAQUE, 0)]).collect();
    let struct_again = [structs.clone(), vec![(kind::NAMED_STRUCT, 0), (kind::OPAQUE, 0)]].concat();
    vec![
        large("131,072 marks", 0, &then(each(kind::DEFINED).collect()), NAMES),
        large("131,072 marks, backwards", 0, &then(each(kind::RESERVED).rev().collect()), NAMES),
        large("131,072 marks of both sorts, out of order", 0, &then(mixed), NAMES),
        large("131,073 marks", 1, &then(again), NAMES),
        large("131,072 marks in a book of 1,048,576 entries", 0, &filled(each(kind::RESERVED).collect(), ENTRIES), NAMES),
        large("131,072 structs", 0, &then(structs), NAMES),
        large("131,073 structs", 1, &then(struct_again), NAMES),
    ]
}

/// `void` function 0 with parameters of these types and no block.
fn parameters(types: &[Entries]) -> Entries {
    let types = types.iter().flat_map(|entries| [&[(kind::PARAM, 0)], &entries[..]].concat());
    [vec![(kind::FUNCTION, 0), VOID], types.collect(), vec![END, END, END]].concat()
}

/// Function 0 of this return type, with no parameters and no block.
fn returning(ty: &[(u64, u64)]) -> Entries {
    [&[(kind::FUNCTION, 0)], ty, &[END, END, END]].concat()
}

fn types() -> Vec<Large> {
    let wide = ENTRIES - 2 - 2 * LEVELS;
    let deep = vec![arrays(LEVELS); (ENTRIES - 5) / (LEVELS + 1) - 1];
    let last = |levels: usize| [deep.clone(), vec![arrays(levels)]].concat();
    vec![
        large("64 levels of arrays", 0, &returning(&arrays(LEVELS)), 1),
        large("65 levels of arrays", 1, &returning(&arrays(LEVELS + 1)), 1),
        large("64 levels of structs", 0, &returning(&nested(LEVELS, &[])), 1),
        large("65 levels of structs", 1, &returning(&nested(LEVELS + 1, &[])), 1),
        large("64 levels in each parameter", 0, &parameters(&last(LEVELS)), 1),
        large("65 levels in the last parameter", 1, &parameters(&last(LEVELS + 1)), 1),
        large("a struct of as many fields as fit", 0, &returning(&nested(1, &vec![BYTE; ENTRIES - 6])), 1),
        large("64 levels, the last one wide", 0, &returning(&nested(LEVELS - 1, &vec![BYTE; wide])), 1),
        large("64 levels, the last one wide, its last field deeper", 1, &returning(&nested(LEVELS - 1, &deeper(wide))), 1),
        large("structs of structs, side by side", 0, &returning(&nested(1, &repeated(&nested(LEVELS - 1, &[]), 6))), 1),
        large("more arrays in one another than the book has levels", 1, &returning(&arrays(ENTRIES - 4)), 1),
        large("more structs in one another than the book has levels", 1, &returning(&nested(ENTRIES / 2 - 2, &[])), 1),
    ]
}

/// Fields of which the last is one level deeper than the others.
fn deeper(entries: usize) -> Entries {
    let mut fields = vec![BYTE; entries - 2];
    fields.extend([(kind::ARRAY, 1), BYTE]);
    fields
}

fn lists() -> Vec<Large> {
    let gep = |indices: usize| {
        let index = [(kind::INT, 32), (kind::INTEGER, u64::MAX << 31)];
        [vec![(kind::GEP, 0), BYTE, (kind::NULL, 0)], index.repeat(indices), vec![END]].concat()
    };
    let geps = repeated(&gep(MOST_INDICES), 200);
    let argument = [BYTE, (kind::UNDEF, 0)];
    let pair = [(kind::POISON, 0), (kind::TARGET, 0)];
    let case = [(kind::INTEGER, u64::MAX), (kind::TARGET, 0)];
    let call = [vec![(kind::CALL, 0), VOID, (kind::GLOBAL, 0)], repeated(&argument, 20), vec![END]].concat();
    let phi = [vec![(kind::PHI, 0), BYTE], repeated(&pair, 20), vec![END]].concat();
    let switch_on = vec![(kind::SWITCH, 0), BYTE, (kind::NULL, 0), (kind::TARGET, 0)];
    let switch = [switch_on, repeated(&case, 20), vec![END]].concat();
    let blocks = [vec![(kind::FUNCTION, 0), VOID, END], repeated(&[(kind::BLOCK, 0), (kind::UNREACHABLE, 0)], 5), vec![END, END]];
    vec![
        large("a call of as many arguments as fit", 0, &unreachable(&call), 1),
        large("a phi of as many pairs as fit", 0, &unreachable(&phi), 1),
        large("a switch of as many cases as fit", 0, &function(&[], &switch), 1),
        large("as many blocks as fit", 0, &blocks.concat(), 1),
        large("32 indices in every getelementptr", 0, &unreachable(&[geps.clone(), gep(MOST_INDICES)].concat()), 1),
        large("33 indices in the last getelementptr", 1, &unreachable(&[geps, gep(MOST_INDICES + 1)].concat()), 1),
    ]
}

fn calls() -> Vec<Large> {
    let call = |callee: u64| [(kind::CALL, 0), VOID, (kind::GLOBAL, callee), END];
    let deep = [&[(kind::CALL, 0)], &arrays(LEVELS)[..], &[(kind::GLOBAL, 0), END]].concat();
    let wide = [vec![(kind::CALL, 0)], nested(1, &[BYTE; 4000]), vec![(kind::GLOBAL, 0), END]].concat();
    let marked = |insts: Entries| [vec![(kind::RESERVED, MOST_NAMES - 1)], unreachable(&insts)].concat();
    let many = |last: &[(u64, u64)]| [repeated(&call(0), 20), last.to_vec()].concat();
    let other = [(kind::FREEZE, 0), BYTE, (kind::OTHER, 0)];
    vec![
        large("as many calls as fit", 0, &marked(many(&[])), NAMES),
        large("as many calls as fit, the last of a reserved name", 3, &marked(many(&call(MOST_NAMES - 1))), NAMES),
        large("as many calls as fit, then kind 37", 3, &marked(many(&other)), NAMES),
        large("as many calls of 64 levels as fit", 0, &unreachable(&repeated(&deep, 7)), 1),
        large("as many calls of 4,000 fields as fit", 0, &unreachable(&repeated(&wide, 7)), 1),
    ]
}

/// `void` function 0 with other names than those above.
fn named(what: &'static str, answer: u64, count: usize, names: Vec<u8>) -> Large {
    let mut large = large(what, answer, &unreachable(&[]), count);
    large.lent.slices.names = names;
    large
}

fn names() -> Vec<Large> {
    let alike = |number: usize| [vec![b'a'; 10_000], format!("{number:03}\n").into_bytes()].concat();
    let one = [vec![b'a'; 1 << 24], vec![b'\n']].concat();
    let outside = "é".repeat(1 << 23) + "\n";
    let mut cut = outside.clone().into_bytes();
    cut.remove((1 << 24) - 1);
    let single = ('\u{10000}'..).take(NAMES).flat_map(|c| format!("{c}\n").into_bytes()).collect();
    let accents = |number: usize| format!("{}{}\n", "ř".repeat(5000), char::from_u32(0x700 + number as u32).expect("a character"));
    vec![
        named("131,072 names counted and 131,071 there", 2, NAMES, names_of(0..NAMES - 1)),
        named("131,072 names counted and 131,073 there", 2, NAMES, names_of(0..NAMES + 1)),
        named("131,072 names, the last one twice", 2, NAMES, names_of((0..NAMES - 1).chain([NAMES - 2]))),
        named("a name of 16,777,216 bytes", 0, 1, one.clone()),
        named("a name of 16,777,216 bytes, not ended", 2, 1, one[..1 << 24].to_vec()),
        named("1,000 names that differ in their ends", 0, 1000, (0..1000).flat_map(alike).collect()),
        named("1,000 names that differ in their ends, backwards", 2, 1000, (0..1000).rev().flat_map(alike).collect()),
        named("a name of 8,388,608 characters of two bytes", 0, 1, outside.into_bytes()),
        named("a name of 8,388,608 characters of two bytes, the last cut off", 2, 1, cut),
        named("131,072 names of one character of four bytes", 0, NAMES, single),
        named("1,000 names outside ASCII that differ in their ends", 0, 1000, (0..1000).flat_map(|number| accents(number).into_bytes()).collect()),
        named("16,777,216 ends of names", 2, NAMES, vec![b'\n'; 1 << 24]),
    ]
}

/// A `void` function of this name without parameters; with one block of these instructions, which returns.
pub fn small(name: u64, insts: &[(u64, u64)]) -> Entries {
    [&[(kind::FUNCTION, name), VOID, END, (kind::BLOCK, name)], insts, &[(kind::RET, 0), (kind::ABSENT, 0), END]].concat()
}

/// The same without a block.
fn bare(name: u64) -> Entries {
    vec![(kind::FUNCTION, name), VOID, END, END]
}

/// These functions, closed.
pub fn closed(functions: impl Iterator<Item = Entries>) -> Entries {
    functions.flatten().chain([END]).collect()
}

/// As many functions as there are names, in as many entries as there may be: all but the last have a fence.
pub fn most_functions() -> Entries {
    let fence = |name: u64| if name + 1 < MOST_NAMES { vec![(kind::FENCE, 0)] } else { vec![] };
    let entries = closed((0..MOST_NAMES).map(|name| small(name, &fence(name))));
    assert_eq!(entries.len(), ENTRIES);
    entries
}

fn functions() -> Vec<Large> {
    let all = || (0..MOST_NAMES).map(bare);
    let marks = |kind: u64| (0..MOST_NAMES).map(move |name| (kind, name));
    let marked = |kind: u64| marks(kind).chain(closed(all())).collect::<Entries>();
    let again = |name: u64| closed(all().chain([bare(name)]));
    let open: Entries = all().flatten().collect();
    let callee = |name: u64| [(kind::CALL, 0), VOID, (kind::GLOBAL, (name * 77_777 + 1) % 80_000), END];
    let mut between = closed(all());
    between.insert(4 * NAMES / 2, END);
    vec![
        large("131,072 functions in 1,048,576 entries", 0, &most_functions(), NAMES),
        large("131,072 functions without blocks", 0, &closed(all()), NAMES),
        large("131,072 functions, backwards", 0, &closed((0..MOST_NAMES).rev().map(bare)), NAMES),
        large("131,072 functions out of order", 0, &closed((0..MOST_NAMES).map(|name| bare(name * 77_777 % MOST_NAMES))), NAMES),
        large("131,072 functions and the first one again", 1, &again(0), NAMES),
        large("131,072 functions and the last one again", 1, &again(MOST_NAMES - 1), NAMES),
        large("131,072 functions, not closed", 1, &open, NAMES),
        large("131,072 functions, closed twice", 1, &[open.clone(), vec![END, END]].concat(), NAMES),
        large("131,072 functions, closed in the middle too", 1, &between, NAMES),
        large("131,072 functions, each marked defined", 0, &marked(kind::DEFINED), NAMES),
        large("131,072 functions, each marked reserved", 0, &marked(kind::RESERVED), NAMES),
        large("80,000 functions that call others", 0, &closed((0..80_000).map(|name| small(name, &callee(name)))), NAMES),
        large("a function that calls a reserved one, the last of 131,071", 3, &last_call(), NAMES),
        large("no function", 1, &[END], 1),
        large("marks and no function", 1, &marks(kind::DEFINED).chain([END]).collect::<Entries>(), NAMES),
    ]
}

/// Functions without blocks, one of them reserved, and a last one that calls it.
fn last_call() -> Entries {
    let call = [(kind::CALL, 0), VOID, (kind::GLOBAL, 7), END];
    let functions = (0..MOST_NAMES - 2).map(bare).chain([small(MOST_NAMES - 1, &call)]);
    [vec![(kind::RESERVED, 7)], closed(functions)].concat()
}
