//! Tests of this program: the sheets of document 01 and the limits, put to the oracle, and random books both ways.
use crate::book::*;
use crate::check::{check, Verdict};
use crate::expect::{expected, Expected};
use crate::pieces;
use crate::random;
use crate::segments;
use crate::stats;
use crate::two_runs;
use crate::written::{self, notation};

const RANDOM_BOOKS: u64 = 20_000;
const PIECES: u64 = 4_000;

pub fn test() -> Result<(), String> {
    let mut failures = 0;
    let mut count = 0;
    let mut say = |name: &str, result: Result<(), String>| {
        count += 1;
        if let Err(error) = result {
            failures += 1;
            println!("FAILED {name}: {error}");
        }
    };
    for sheet in sheets() {
        say(sheet.name, accepts(&sheet.slices, &sheet.lines));
    }
    for (name, number, slices) in refused() {
        say(name, refuses(&slices, number));
    }
    for (name, number, slices) in broken() {
        say(name, refuses(&slices, number));
    }
    for (name, number, slices) in limits() {
        say(name, answers(&slices, 0, number));
    }
    say("counter 2^32", answers(&add1(), 1 << 32, None));
    say("counter 2^32 + 1", answers(&add1(), (1 << 32) + 1, Some(1)));
    say("counters of two functions", counters());
    say("work slice", work_slice());
    say("structs that double", doubling());
    say("counting labels", labels());
    say("read what was written", round_trips());
    say("pieces one by one", pieces::test(3, PIECES));
    say("segments", segments::test(3, PIECES));
    for (name, result) in written::tests() {
        say(&format!("written: {name}"), result);
    }
    for (name, result) in two_runs::tests() {
        say(&format!("two runs: {name}"), result);
    }
    println!("{count} tests, {failures} failures");
    println!("random books:");
    stats::books(1, RANDOM_BOOKS)?;
    println!("damaged copies:");
    stats::damaged(1, RANDOM_BOOKS)?;
    println!("faulty statements:");
    stats::faulty(1, RANDOM_BOOKS)?;
    if failures == 0 { Ok(()) } else { Err("tests failed".to_string()) }
}

// ---- asking

fn reply(slices: &Slices, counter: u64) -> Result<Expected, String> {
    expected(&Lent { slices: slices.clone(), counter, work: usize::MAX })
}

fn accepts(slices: &Slices, lines: &[&str]) -> Result<(), String> {
    match reply(slices, 0)? {
        Expected::Accepted(accepted) if accepted.lines == lines => Ok(()),
        Expected::Accepted(accepted) => Err(format!("got {:?}", accepted.lines)),
        Expected::Refused(number) => Err(format!("refused with {number}")),
        Expected::Open(reason) => Err(reason.to_string()),
    }
}

fn refuses(slices: &Slices, number: u8) -> Result<(), String> {
    answers(slices, 0, Some(number))
}

/// None: accepted.
fn answers(slices: &Slices, counter: u64, expected: Option<u8>) -> Result<(), String> {
    let found = match reply(slices, counter)? {
        Expected::Accepted(_) => None,
        Expected::Refused(number) => Some(number),
        Expected::Open(reason) => return Err(reason.to_string()),
    };
    if found == expected { Ok(()) } else { Err(format!("expected {expected:?}, got {found:?}")) }
}

// ---- books

type Entries = Vec<(u64, u64)>;

const ADD1: &[(u64, u64)] = &[
    (5, 1), (11, 32), (6, 1), (11, 32), (0, 0), (7, 2), (40, 4), (11, 32), (30, 0), (32, 1), (90, 0), (11, 32), (30, 3), (0, 0),
    (0, 0),
];

fn add1() -> Slices {
    Slices::new(ADD1, &["a", "add1", "entry", "r"])
}

/// The names of the books below: block, function, opaque struct, parameter (a pointer), and others.
const NAMES: &[&str] = &["e", "f", "o", "p", "q", "r", "x"];
const BLOCK: u64 = 0;
const PARAM: u64 = 3;
const Q: u64 = 4;
const R: u64 = 5;

/// `void @f(ptr %p)` with one block of these instructions, ending with `ret void`.
fn with_insts(insts: &[(u64, u64)]) -> Slices {
    with_block(&[insts, &[(90, 0), (21, 0)]].concat())
}

/// The same with the block's terminator given too.
fn with_block(entries: &[(u64, u64)]) -> Slices {
    let mut all: Entries = vec![(3, 2), (4, 0), (5, 1), (10, 0), (6, PARAM + 1), (12, 0), (0, 0), (7, BLOCK)];
    all.extend_from_slice(entries);
    all.extend([(0, 0), (0, 0)]);
    Slices::new(&all, NAMES)
}

/// `void @f(ptr %p)` as above, then `void @x()` with one block of these instructions, ending with `ret void`.
fn with_two(insts: &[(u64, u64)], more: &[(u64, u64)]) -> Slices {
    let mut entries = with_insts(insts).entries();
    entries.pop();
    entries.extend([(5, 6), (10, 0), (0, 0), (7, BLOCK)]);
    entries.extend(more);
    entries.extend([(90, 0), (21, 0), (0, 0), (0, 0)]);
    Slices::new(&entries, NAMES)
}

struct Sheet {
    name: &'static str,
    slices: Slices,
    lines: Vec<&'static str>,
}

/// The lines of `with_insts` around those of one instruction in slot 0.
fn around(lines: &[&'static str]) -> Vec<&'static str> {
    [&["# void @f(1 params)", "f:", "push_0n 1;", "f__e:"], lines, &["push 0;", "ret;", ""]].concat()
}

/// getelementptr over {i8, i32, i8}, packed or not, from %p.
fn gep(index: i64, field: u64, packed: bool) -> Slices {
    let body = if packed { 17 } else { 16 };
    let fields = [(body, 0), (11, 8), (11, 32), (11, 8), (0, 0)];
    let indices = [(11, 32), (32, index as u64), (11, 32), (32, field), (0, 0)];
    with_insts(&[&[(74, Q + 1)], &fields[..], &[(30, PARAM)], &indices].concat())
}

fn conversion(kind: u64, from: u64, to: u64) -> Slices {
    with_insts(&[(kind, Q + 1), (11, from), (30, PARAM), (11, to)])
}

/// `[2 x %Ž€😀] @árie()` with one block `č`: calls of `zpěv` and of a syscall, a store of the address of `Ž€😀`, a jump to itself.
fn outside() -> Slices {
    let call = |name: u64| [(76, 0), (10, 0), (31, name), (0, 0)];
    let head = [(1, 1), (5, 2), (13, 2), (15, 4), (0, 0), (7, 3)];
    let rest = [(72, 0), (12, 0), (31, 4), (33, 0), (21, 0), (91, 0), (21, 0), (23, 3), (21, 0), (0, 0), (0, 0)];
    Slices::new(&[&head[..], &call(1), &call(0), &rest].concat(), &["__uvm_říct", "zpěv", "árie", "č", "Ž€😀"])
}

/// add1 with other bytes for the last of its names.
fn last_name(name: &[u8]) -> Slices {
    Slices { book: add1().book, names: [b"a\nadd1\nentry\n", name, b"\n"].concat() }
}

/// The cases marked M in document 01.
fn sheets() -> Vec<Sheet> {
    let mut sheets = vec![];
    let mut sheet = |name, slices, lines: Vec<&'static str>| sheets.push(Sheet { name, slices, lines });
    sheet("add1", add1(), vec![
        "# i32 @add1(1 params)", "add1:", "push_0n 1;", "add1__entry:", "get_arg 0;", "push 1;", "add_u32;", "set_local 0;",
        "get_local 0;", "ret;", "",
    ]);
    let offset = |push| around(&["get_arg 0;", push, "add_u64;", "set_local 0;"]);
    sheet("offset of field 1", gep(0, 1, false), offset("push 4;"));
    sheet("offset of field 2", gep(0, 2, false), offset("push 8;"));
    sheet("size", gep(1, 0, false), offset("push 12;"));
    sheet("packed, field 1", gep(0, 1, true), offset("push 1;"));
    sheet("packed, field 2", gep(0, 2, true), offset("push 5;"));
    sheet("packed, size", gep(1, 0, true), offset("push 6;"));
    sheet("index 1, field 2", gep(1, 2, false), offset("push 20;"));
    sheet("index -1, field 0", gep(-1, 0, false), offset("push 18446744073709551604;"));
    sheet("index 0, field 0", gep(0, 0, false), around(&["get_arg 0;", "set_local 0;"]));
    sheet("sext i1 to i8", conversion(55, 1, 8),
        around(&["get_arg 0;", "push 1;", "and_u32;", "push 255;", "mul_u32;", "set_local 0;"]));
    sheet("sext i8 to i16", conversion(55, 8, 16), around(&["get_arg 0;", "sx_i8_i32;", "trunc_u16;", "set_local 0;"]));

    let phis = [
        (5, 1), (10, 0), (0, 0), (7, 0), (91, 0), (21, 0), (23, 2), (21, 0),
        (7, 2), (75, 4), (11, 32), (32, 1), (23, 0), (30, 4), (23, 2), (0, 0),
        (75, 5), (11, 32), (32, 2), (23, 0), (30, 3), (23, 2), (0, 0), (91, 0), (21, 0), (23, 2), (21, 0), (0, 0),
        (0, 0),
    ];
    sheet("phis that trade", Slices::new(&phis, &["e", "f", "l", "x", "y"]), vec![
        "# void @f(0 params)", "f:", "push_0n 2;", "f__e:", "push 1;", "push 2;", "set_local 1;", "set_local 0;", "jmp f__l;",
        "f__l:", "get_local 1;", "get_local 0;", "set_local 1;", "set_local 0;", "jmp f__l;", "",
    ]);
    let allocas = with_insts(&[(73, Q + 1), (11, 8), (21, 0), (21, 0), (73, R + 1), (11, 32), (21, 0), (21, 0)]);
    sheet("allocas", allocas, vec![
        "# void @f(1 params)", "f:", "push_0n 3;", "thread_get 0;", "dup;", "set_local 2;", "push 8;", "add_u64;",
        "thread_set 0;", "f__e:", "get_local 2;", "set_local 0;", "get_local 2;", "push 4;", "add_u64;", "set_local 1;",
        "push 0;", "get_local 2;", "thread_set 0;", "ret;", "",
    ]);
    // Where the Rust's ways are easily missed.
    sheet("fixed places of size 0", with_insts(&[(73, Q + 1), (16, 0), (0, 0), (21, 0), (21, 0)]),
        around(&["get_local 1;", "set_local 0;"]));
    sheet("freeze masks to 8 x size", with_insts(&[(77, Q + 1), (10, 0), (32, 7)]), around(&["push 0;", "set_local 0;"]));
    sheet("a switch without cases never reads its value",
        with_block(&[(92, 0), (11, 8), (30, Q), (23, BLOCK), (0, 0)]),
        vec!["# void @f(1 params)", "f:", "f__e:", "jmp f__e;", ""]);
    sheet("no block", Slices::new(&[(5, 0), (15, 1), (0, 0), (0, 0), (0, 0)], &["a.b", "c d"]), vec!["# %c d @a.b(0 params)", "a_b:", ""]);
    let two = "func:f i8 param:p i8 . block:e q=select %p i8 1 2 r=call i8 @g i8 %q . ret i8 %r . \
        func:g i8 param:p i8 param:q i8 . block:e x=alloca i8 - - br - :e - . .";
    sheet("two functions", notation::read(two).expect("words of the notation"), vec![
        "# i8 @f(1 params)", "f:", "push_0n 2;", "f__e:", "get_arg 0;", "jz __sel_false_0;", "push 1;", "jmp __sel_done_1;", "__sel_false_0:",
        "push 2;", "__sel_done_1:", "set_local 0;", "get_local 0;", "call g, 1;", "set_local 1;", "get_local 1;", "ret;", "",
        "# i8 @g(2 params)", "g:", "push_0n 2;", "thread_get 0;", "dup;", "set_local 1;", "push 8;", "add_u64;", "thread_set 0;", "g__e:",
        "get_local 1;", "set_local 0;", "jmp g__e;", "",
    ]);
    let labels = "func:f void . block:e br 1 :e :e . func:g void . block:e br 1 :e :e . .";
    sheet("labels are counted on", notation::read(labels).expect("words of the notation"), vec![
        "# void @f(0 params)", "f:", "f__e:", "push 1;", "jz __br_false_0;", "jmp f__e;", "__br_false_0:", "jmp f__e;", "",
        "# void @g(0 params)", "g:", "g__e:", "push 1;", "jz __br_false_1;", "jmp g__e;", "__br_false_1:", "jmp g__e;", "",
    ]);
    sheet("letters outside ASCII", outside(), vec![
        "# [2 x %Ž€😀] @árie(0 params)", "_rie:", "_rie___:", "call zp_v, 0;", "pop;", "syscall říct;", "push 0;", "push ___;", "store_u64;",
        "jmp _rie___;", "",
    ]);
    sheets
}

/// A book for each refusal: the examples of document 01.
fn refused() -> Vec<(&'static str, u8, Slices)> {
    let i32_ = (11, 32);
    let one = (32, 1);
    let mut many_args = vec![(76, Q + 1), i32_, (31, 1)];
    many_args.extend([i32_, (32, 0)].repeat(256));
    many_args.push((0, 0));
    let call = |callee| with_insts(&[(76, Q + 1), i32_, callee, (0, 0)]);
    let named_call = |name: &str| {
        Slices::new(&[(5, 1), (10, 0), (0, 0), (7, 0), (76, 0), (10, 0), (31, 2), (0, 0), (93, 0), (0, 0), (0, 0)], &["e", "f", name])
    };
    let marked = [(2, 2), (5, 1), (10, 0), (0, 0), (7, 0), (76, 0), (10, 0), (31, 2), (0, 0), (93, 0), (0, 0), (0, 0)];
    let cmpxchg = [(80, Q + 1), (12, 0), (30, PARAM), (32, 0), one];
    vec![
        ("kind 37", 3, with_insts(&[(40, Q + 1), i32_, (37, 0), one])),
        ("call @llvm.trap", 3, named_call("llvm.trap")),
        ("call of a reserved name", 3, Slices::new(&marked, &["e", "f", "sinf"])),
        ("add without name", 5, with_insts(&[(40, 0), i32_, one, one])),
        ("alloca without name", 5, with_insts(&[(73, 0), (15, 2), (21, 0), (21, 0)])),
        ("load of an opaque struct", 6, with_insts(&[(71, Q + 1), (15, 2), (30, PARAM), (21, 0)])),
        ("load of an undefined struct", 6, with_insts(&[(71, Q + 1), (15, 0), (30, PARAM), (21, 0)])),
        ("load of a function", 6, with_insts(&[(71, Q + 1), (18, 0), (30, PARAM), (21, 0)])),
        ("freeze of a label", 6, with_insts(&[(77, Q + 1), (19, 0), one])),
        ("alloca of metadata", 6, with_insts(&[(73, Q + 1), (20, 0), (21, 0), (21, 0)])),
        ("alloca of 2^24 + 1 bytes", 7, with_insts(&[(73, Q + 1), (13, 16_777_217), (11, 8), (21, 0), (21, 0)])),
        ("add on an array", 9, with_insts(&[(40, Q + 1), (13, 2), (11, 8), one, one])),
        ("ret i32 %q alone", 10, with_block(&[(90, 0), i32_, (30, Q)])),
        ("load of 3 x i8", 11, with_insts(&[(71, Q + 1), (13, 3), (11, 8), (30, PARAM), (21, 0)])),
        ("atomic load i32", 12, with_insts(&[(78, Q + 1), i32_, (30, PARAM)])),
        ("cmpxchg i32 without name", 12, with_insts(&[(80, 0), i32_, (30, PARAM), one, one])),
        ("sext i64 to i64", 13, conversion(55, 64, 64)),
        ("sext i32 to i8", 13, conversion(55, 32, 8)),
        ("field 2 of two", 14, with_insts(&[
            (74, Q + 1), (16, 0), i32_, i32_, (0, 0), (30, PARAM), i32_, (32, 0), i32_, (32, 2), (0, 0),
        ])),
        ("call of null", 15, call((33, 0))),
        ("call of a name not defined", 15, call((31, 6))),
        ("256 arguments", 15, with_insts(&many_args)),
        ("extractvalue of a parameter", 16, with_insts(&[(81, Q + 1), (30, PARAM), (22, 0)])),
        ("extractvalue, index 2", 16, with_insts(&[&cmpxchg[..], &[(81, R + 1), (30, Q), (22, 2)]].concat())),
        ("br %gone", 17, with_block(&[(91, 0), (21, 0), (23, Q), (21, 0)])),
        ("phi lacks the predecessor", 18, with_block(&[
            (75, Q + 1), i32_, one, (23, R), (0, 0), (91, 0), (21, 0), (23, BLOCK), (21, 0),
        ])),
        ("condition without false target", 19, with_block(&[(91, 0), one, (23, BLOCK), (21, 0)])),
    ]
}

/// Books that break "The book", each by one change of add1 or of a larger one.
fn broken() -> Vec<(&'static str, u8, Slices)> {
    let names = ["a", "add1", "entry", "r"];
    let entries = |entries: &[(u64, u64)]| Slices::new(entries, &names);
    let changed = |place: usize, entry: (u64, u64)| {
        let mut all = ADD1.to_vec();
        all[place] = entry;
        entries(&all)
    };
    let before = |more: &[(u64, u64)]| entries(&[more, ADD1].concat());
    let slice = |book: &[u64]| Slices { book: book.to_vec(), names: add1().names };
    let bytes = |bytes: &[u8]| Slices { book: add1().book, names: bytes.to_vec() };
    let mut longer = add1();
    longer.book.push(0);
    let load = |align| with_insts(&[(71, Q + 1), (11, 32), (30, PARAM), (22, align)]);
    let index = |index| with_insts(&[(74, Q + 1), (11, 8), (30, PARAM), (11, 64), (32, index), (0, 0)]);
    vec![
        ("empty slice", 1, slice(&[])),
        ("one word", 1, slice(&[0])),
        ("no entries", 1, slice(&[0, 4])),
        ("a word too many", 1, longer),
        ("2^63 entries", 1, slice(&[1 << 63, 4])),
        ("cut short", 1, entries(&ADD1[..13])),
        ("no end of the functions", 1, entries(&ADD1[..14])),
        ("one entry more", 1, entries(&[ADD1, &[(0, 0)]].concat())),
        ("a word at the end of the functions", 1, changed(14, (0, 1))),
        ("two books", 1, entries(&[ADD1, ADD1].concat())),
        ("a function twice", 1, entries(&[&ADD1[..14], ADD1].concat())),
        ("no function", 1, entries(&[(1, 0), (0, 0)])),
        ("i7", 1, changed(1, (11, 7))),
        ("i128", 1, changed(1, (11, 128))),
        ("name out of range", 1, changed(0, (5, 4))),
        ("result out of range", 1, changed(6, (40, 5))),
        ("a word where none is", 1, changed(4, (0, 1))),
        ("a terminator with a name", 1, changed(10, (90, 1))),
        ("no such instruction", 1, changed(6, (59, 4))),
        ("no such terminator", 1, changed(10, (94, 0))),
        ("marked twice", 1, before(&[(1, 0), (2, 0)])),
        ("struct twice", 1, before(&[(3, 0), (4, 0), (3, 0), (4, 0)])),
        ("struct of an array", 1, before(&[(3, 0), (13, 1), (11, 8)])),
        ("mark behind a struct", 1, before(&[(3, 0), (4, 0), (1, 0)])),
        ("opaque as a type", 1, changed(1, (4, 0))),
        ("align 0", 1, load(0)),
        ("align 3", 1, load(3)),
        ("align 8,192", 1, load(8192)),
        ("index 2^31", 1, index(1 << 31)),
        ("index -2^31 - 1", 1, index((-(1i64 << 31) - 1) as u64)),
        ("extractvalue index 2^32", 1, with_insts(&[(81, Q + 1), (30, PARAM), (22, 1 << 32)])),
        ("b, then a", 2, Slices::new(ADD1, &["b", "a", "entry", "r"])),
        ("a twice", 2, Slices::new(ADD1, &["a", "a", "entry", "r"])),
        ("empty name", 2, bytes(b"\na\nb\nc\n")),
        ("no last newline", 2, bytes(b"a\nadd1\nentry\nr")),
        ("a name too few", 2, bytes(b"a\nadd1\nentry\n")),
        ("a name too many", 2, bytes(b"a\nadd1\nentry\nr\ns\n")),
        ("byte 31", 2, bytes(b"\x1f\nadd1\nentry\nr\n")),
        ("byte 127", 2, bytes(b"a\nadd1\nentry\n\x7f\n")),
        ("byte 31 behind a letter", 2, last_name(b"\xc3\xa9\x1f")),
        ("byte 127 behind a letter", 2, last_name(b"\xc3\xa9\x7f")),
        ("no letter before its end", 2, last_name(b"\xc3")),
        ("no letter before the slice's end", 2, bytes(b"a\nadd1\nentry\n\xf0\x9f\x98")),
        ("letters backwards", 2, Slices::new(ADD1, &["a", "add1", "š", "č"])),
        ("a later byte alone", 2, last_name(b"r\x80")),
        ("two bytes for U+0000", 2, last_name(b"\xc0\x80")),
        ("two bytes for U+007F", 2, last_name(b"\xc1\xbf")),
        ("three bytes for U+07FF", 2, last_name(b"\xe0\x9f\xbf")),
        ("four bytes for U+FFFF", 2, last_name(b"\xf0\x8f\xbf\xbf")),
        ("U+D800", 2, last_name(b"\xed\xa0\x80")),
        ("U+DFFF", 2, last_name(b"\xed\xbf\xbf")),
        ("U+110000", 2, last_name(b"\xf4\x90\x80\x80")),
        ("byte 245", 2, last_name(b"\xf5\x80\x80\x80")),
        ("five bytes", 2, last_name(b"\xf8\x88\x80\x80\x80")),
        ("byte 255", 2, last_name(b"\xff")),
    ]
}

fn nested(arrays: usize) -> Entries {
    [vec![(13, 1); arrays], vec![(11, 32)]].concat()
}

/// `%s0 = {i8}`, `%s1 = {%s0}` and so on, and a load of the last.
fn chain(count: u64) -> Slices {
    let mut names: Vec<String> = (0..count).map(|number| format!("s{number:02}")).collect();
    names.extend(["t".to_string(), "u".to_string(), "v".to_string()]);
    let mut entries: Entries = vec![];
    for number in 0..count {
        let field = if number == 0 { (11, 8) } else { (15, number - 1) };
        entries.extend([(3, number), (16, 0), field, (0, 0)]);
    }
    entries.extend([(5, count), (10, 0), (0, 0), (7, count + 1), (71, count + 3), (15, count - 1), (33, 0), (21, 0)]);
    entries.extend([(93, 0), (0, 0), (0, 0)]);
    Slices::new(&entries, &names.iter().map(String::as_str).collect::<Vec<_>>())
}

/// `%s = {}` and a freeze of an array of arrays of it, or of an undefined struct.
fn frozen(arrays: usize, defined: bool) -> Slices {
    let name = if defined { 3 } else { 0 };
    let head = [(3, 3), (16, 0), (0, 0), (5, 1), (10, 0), (0, 0), (7, 0), (77, 3)];
    let entries = [&head[..], &vec![(13, 1); arrays], &[(15, name), (32, 1), (93, 0), (0, 0), (0, 0)]].concat();
    Slices::new(&entries, &["e", "f", "r", "s"])
}

/// So many names, of which the book uses two.
fn many_names(count: usize) -> Slices {
    let names: Vec<String> = (0..count).map(|number| format!("{number:06}")).collect();
    let names: Vec<&str> = names.iter().map(String::as_str).collect();
    Slices::new(&[(5, 0), (10, 0), (0, 0), (7, 1), (93, 0), (0, 0), (0, 0)], &names)
}

/// So many entries, most of them in a phi that no edge enters.
fn many_entries(count: usize) -> Slices {
    let mut entries: Entries = vec![(5, 0), (10, 0), (0, 0), (7, 1), (75, 0), (10, 0)];
    let tail = [(0, 0), (93, 0), (0, 0), (0, 0)];
    let room = count - entries.len() - tail.len();
    entries.extend([(33, 0), (23, 0)].repeat(room / 2));
    entries.push(tail[0]);
    entries.extend(vec![(82, 0); room % 2]);
    entries.extend(&tail[1..]);
    Slices::new(&entries, &["a", "b"])
}

/// Books at the limits: None is accepted.
fn limits() -> Vec<(&'static str, Option<u8>, Slices)> {
    let load = |ty: &[(u64, u64)]| with_insts(&[&[(71, Q + 1)], ty, &[(30, PARAM), (21, 0)]].concat());
    let freeze = |ty: &[(u64, u64)]| with_insts(&[&[(77, Q + 1)], ty, &[(32, 1)]].concat());
    let place = |count: u64| [(73, Q + 1), (11, 8), (11, 64), (32, count), (21, 0)];
    let frame = |count: u64| with_insts(&place(count));
    let empty_places = with_insts(&[(73, Q + 1), (16, 0), (0, 0), (11, 64), (32, u64::MAX), (21, 0)]);
    let slots = |count: usize| with_insts(&vec![(82, Q + 1); count]);
    let slots_and_place = |count: usize| {
        with_insts(&[vec![(82, R + 1); count], vec![(73, Q + 1), (11, 8), (21, 0), (21, 0)]].concat())
    };
    let args_of = |callee: (u64, u64), arg: (u64, u64), count: usize| {
        let head = [(5, 2), (10, 0), (6, 5), (12, 0), (0, 0), (7, 1), (76, 0), (10, 0), callee];
        let entries = [&head[..], &[(11, 32), arg].repeat(count), &[(0, 0), (93, 0), (0, 0), (0, 0)]].concat();
        Slices::new(&entries, &["__uvm_a", "e", "f", "memcmp", "p", "u"])
    };
    let args = |callee: u64, count: usize| args_of((31, callee), (32, 0), count);
    let unknown = (30, 5);
    let indices_into = |levels: usize, count: usize| {
        let indices = [(11, 32), (32, 0)].repeat(count);
        with_insts(&[&[(74, Q + 1)], &nested(levels)[..], &[(30, PARAM)], &indices, &[(0, 0)]].concat())
    };
    let indices = |count: usize| indices_into(40, count);
    vec![
        ("131,072 names", None, many_names(131_072)),
        ("131,073 names", Some(1), many_names(131_073)),
        ("1,048,576 entries", None, many_entries(1_048_576)),
        ("1,048,577 entries", Some(1), many_entries(1_048_577)),
        ("64 levels", None, load(&nested(63))),
        ("65 levels", Some(1), load(&nested(64))),
        ("named structs, 63 levels", None, chain(31)),
        ("named structs, 65 levels", Some(7), chain(32)),
        ("an empty struct taken up at level 64", None, frozen(62, true)),
        ("an empty struct taken up at level 65", Some(7), frozen(63, true)),
        ("an undefined struct at level 64", Some(6), frozen(63, false)),
        ("2^24 bytes", None, freeze(&[(13, 1 << 24), (11, 8)])),
        ("2^24 + 1 bytes", Some(7), freeze(&[(13, (1 << 24) + 1), (11, 8)])),
        ("no elements of 2^24 + 1 bytes", Some(7), freeze(&[(13, 0), (13, (1 << 24) + 1), (11, 8)])),
        ("2^64 - 1 elements of no bytes", None, freeze(&[(13, u64::MAX), (16, 0), (0, 0)])),
        ("frame of 2^31", None, frame(1 << 31)),
        ("frame of 2^31 + 1", Some(7), frame((1 << 31) + 1)),
        ("2^64 - 1 places of no bytes", None, empty_places),
        ("65,535 slots", None, slots(65_535)),
        ("65,536 slots", Some(8), slots(65_536)),
        ("65,534 slots with a frame", None, slots_and_place(65_533)),
        ("65,535 slots with a frame", Some(8), slots_and_place(65_534)),
        ("65,535 slots in each of two functions", None, with_two(&vec![(82, Q + 1); 65_535], &vec![(82, Q + 1); 65_535])),
        ("65,536 slots in the second function", Some(8), with_two(&[], &vec![(82, Q + 1); 65_536])),
        ("65,536 slots, then a frame without a name", Some(8), with_two(&vec![(82, Q + 1); 65_536], &[(73, 0), (10, 0), (21, 0), (21, 0)])),
        ("a name missing, then 65,536 slots", Some(5), with_two(&[(40, 0), (11, 32), (32, 1), (32, 1)], &vec![(82, Q + 1); 65_536])),
        ("frames of 2^31 in two functions", None, with_two(&place(1 << 31), &place(1 << 31))),
        ("a frame of 2^31 + 1 in the second function", Some(7), with_two(&place(1), &place((1 << 31) + 1))),
        ("255 arguments", None, args(2, 255)),
        ("256 arguments", Some(15), args(2, 256)),
        ("255 arguments for a local", None, args_of((30, 4), (32, 0), 255)),
        ("256 arguments for a local", Some(15), args_of((30, 4), (32, 0), 256)),
        ("256 arguments for memcmp", None, args(3, 256)),
        ("256 arguments for a syscall", None, args(0, 256)),
        ("255 unknown arguments", Some(10), args_of((31, 2), unknown, 255)),
        ("256 unknown arguments", Some(15), args_of((31, 2), unknown, 256)),
        ("256 unknown arguments for memcmp", Some(10), args_of((31, 3), unknown, 256)),
        ("256 unknown arguments for a syscall", Some(10), args_of((31, 0), unknown, 256)),
        ("255 unknown arguments for null", Some(10), args_of((33, 0), unknown, 255)),
        ("256 unknown arguments for null", Some(15), args_of((33, 0), unknown, 256)),
        ("32 indices", None, indices(32)),
        ("33 indices", Some(1), indices(33)),
        ("32 indices into 31 arrays", None, indices_into(31, 32)),
        ("32 indices into 30 arrays", Some(14), indices_into(30, 32)),
        ("33 indices into 30 arrays", Some(1), indices_into(30, 33)),
        ("U+0080", None, last_name(b"\xc2\x80")),
        ("U+0085", None, last_name(b"\xc2\x85")),
        ("U+07FF", None, last_name(b"\xdf\xbf")),
        ("U+0800", None, last_name(b"\xe0\xa0\x80")),
        ("U+D7FF", None, last_name(b"\xed\x9f\xbf")),
        ("U+E000", None, last_name(b"\xee\x80\x80")),
        ("U+FFFF", None, last_name(b"\xef\xbf\xbf")),
        ("U+10000", None, last_name(b"\xf0\x90\x80\x80")),
        ("U+10FFFF", None, last_name(b"\xf4\x8f\xbf\xbf")),
    ]
}

/// All books above, with what they are.
pub fn books() -> Vec<(String, Slices)> {
    let sheets = sheets().into_iter().map(|sheet| (sheet.name, sheet.slices));
    let refused = refused().into_iter().chain(broken()).map(|(name, _, slices)| (name, slices));
    let limits = limits().into_iter().map(|(name, _, slices)| (name, slices));
    sheets.chain(refused).chain(limits).map(|(name, slices)| (name.to_string(), slices)).collect()
}

// ---- the rest

fn work_slice() -> Result<(), String> {
    let verdict = |work| match check(&Lent { slices: add1(), counter: 0, work }) {
        Verdict::Sound(_) => 0,
        Verdict::Refused(number) => number,
    };
    match (verdict(8 * 4 + 64), verdict(8 * 4 + 63)) {
        (0, 4) => Ok(()),
        found => Err(format!("{found:?}")),
    }
}

/// Empty structs that double with each level: legal, but the Rust would not come back.
fn doubling() -> Result<(), String> {
    let names: Vec<String> = (0..30).map(|number| format!("{number:02}")).collect();
    let names: Vec<&str> = names.iter().map(String::as_str).collect();
    let mut entries: Entries = vec![(3, 0), (16, 0), (0, 0)];
    for number in 1..30 {
        entries.extend([(3, number), (16, 0), (15, number - 1), (15, number - 1), (0, 0)]);
    }
    entries.extend([(5, 0), (10, 0), (0, 0), (7, 0), (77, 1), (15, 29), (33, 0), (93, 0), (0, 0), (0, 0)]);
    match reply(&Slices::new(&entries, &names), 0)? {
        Expected::Open(_) => Ok(()),
        _ => Err("the Rust was asked".to_string()),
    }
}

/// A select takes two labels, from any counter on.
fn labels() -> Result<(), String> {
    let slices = with_insts(&[(70, Q + 1), (32, 1), (11, 8), (32, 255), (32, 256)]);
    let Expected::Accepted(accepted) = reply(&slices, 1 << 32)? else { return Err("refused".to_string()) };
    let expected = around(&[
        "push 1;", "jz __sel_false_4294967296;", "push 255;", "jmp __sel_done_4294967297;", "__sel_false_4294967296:",
        "push 0;", "__sel_done_4294967297:", "set_local 0;",
    ]);
    if accepted.lines == expected && accepted.next == (1 << 32) + 2 { Ok(()) } else { Err(format!("{:?}", accepted.lines)) }
}

/// Only the first counter is held to 2^32: a second function may begin above it.
fn counters() -> Result<(), String> {
    let slices = notation::read("func:f void . block:e br 1 :e :e . func:g void . block:e br 1 :e :e . .")?;
    for (counter, begins) in [((1u64 << 32) - 1, 1u64 << 32), (1 << 32, (1 << 32) + 1)] {
        let Expected::Accepted(accepted) = reply(&slices, counter)? else { return Err(format!("refused at {counter}")) };
        let label = format!("__br_false_{begins}:");
        if !accepted.lines.contains(&label) || accepted.next != counter + 2 {
            return Err(format!("at {counter}: {:?}", accepted.lines));
        }
    }
    answers(&slices, (1 << 32) + 1, Some(1))
}

/// `check` reads back what `encode` wrote.
fn round_trips() -> Result<(), String> {
    for index in 0..RANDOM_BOOKS {
        let book = random::book(2, index, false);
        let slices = encode(&book);
        match check(&Lent { slices: slices.clone(), counter: 0, work: usize::MAX }) {
            Verdict::Refused(3) => {}
            Verdict::Refused(number) => return Err(format!("book {index} gets {number}")),
            Verdict::Sound(read) if format!("{read:?}") == format!("{book:?}") => {}
            Verdict::Sound(read) => return Err(format!("book {index}:\n{book:?}\n{read:?}")),
        }
        if Slices::from_file(&slices.to_file()).as_ref() != Some(&slices) {
            return Err(format!("book {index} changes as a file"));
        }
    }
    Ok(())
}
