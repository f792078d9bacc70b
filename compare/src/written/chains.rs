//! Chains: one statement with every fault that it can have, in the Rust's order; each row repairs the one before's fault.
use super::{blocks, insts, Written};

/// A book of a chain: the refusal it gets, 0 for none, and its text.
type Row = (u8, &'static str);

/// A statement's chain under its title.
type Chain = (&'static str, &'static [Row]);

pub fn values() -> Vec<Written> {
    written(VALUES, insts)
}

pub fn memory() -> Vec<Written> {
    written(MEMORY, insts)
}

pub fn steps_and_calls() -> Vec<Written> {
    written(STEPS_AND_CALLS, insts)
}

pub fn blocks_and_edges() -> Vec<Written> {
    written(BLOCKS, blocks)
}

fn written(chains: &[Chain], whole: fn(&str) -> String) -> Vec<Written> {
    let rows = chains.iter().flat_map(|(title, rows)| rows.iter().map(move |row| (title, row)));
    rows.map(|(title, (refusal, text))| Written { title: title.to_string(), text: whole(text), counter: 0, refusal: *refusal }).collect()
}

// Instructions of the one block. `%p` is a parameter, `%u` is nothing, `%%o` is no struct; `@g` is not defined.

const VALUES: &[Chain] = &[
    ("bin", &[
        (9, "add %%o %u %u"),
        (10, "add i32 %u %u"),
        (10, "add i32 1 %u"),
        (5, "add i32 1 1"),
        (0, "q=add i32 1 1"),
    ]),
    // No extension fails in a binary operation: its width is below the working width.
    ("sdiv", &[(9, "sdiv label %u %u"), (10, "sdiv i8 %u %u"), (10, "sdiv i8 1 %u"), (5, "sdiv i8 1 1"), (0, "q=sdiv i8 1 1")]),
    ("icmp", &[(9, "slt { i32 } %u %u"), (10, "slt i8 %u %u"), (10, "slt i8 1 %u"), (5, "slt i8 1 1"), (0, "q=slt i8 1 1")]),
    ("trunc", &[
        (9, "trunc void %u [2 i8"),
        (9, "trunc i64 %u [2 i8"),
        (10, "trunc i64 %u i8"),
        (5, "trunc i64 1 i8"),
        (0, "q=trunc i64 1 i8"),
    ]),
    ("zext", &[(9, "zext i8 %u void"), (10, "zext i8 %u i16"), (5, "zext i8 1 i16"), (0, "q=zext i8 1 i16")]),
    ("sext", &[
        (9, "sext metadata %u functype"),
        (9, "sext i64 %u functype"),
        (10, "sext i64 %u i64"),
        (13, "sext i64 1 i64"),
        (5, "sext i32 1 i64"),
        (0, "q=sext i32 1 i64"),
    ]),
    ("ptrtoint", &[
        (9, "ptrtoint <2 i8 %u <{ }"),
        (9, "ptrtoint ptr %u <{ }"),
        (10, "ptrtoint ptr %u i32"),
        (5, "ptrtoint ptr 1 i32"),
        (0, "q=ptrtoint ptr 1 i32"),
    ]),
    ("inttoptr", &[(9, "inttoptr i32 %u label"), (10, "inttoptr i32 %u ptr"), (5, "inttoptr i32 1 ptr"), (0, "q=inttoptr i32 1 ptr")]),
    // A bitcast asks for no target width.
    ("bitcast", &[(9, "bitcast label %u label"), (10, "bitcast i8 %u label"), (5, "bitcast i8 1 label"), (0, "q=bitcast i8 1 label")]),
    ("select", &[
        (9, "select %u label %u %u"),
        (10, "select %u i32 %u %u"),
        (10, "select 1 i32 %u %u"),
        (10, "select 1 i32 1 %u"),
        (5, "select 1 i32 1 1"),
        (0, "q=select 1 i32 1 1"),
    ]),
    ("freeze", &[
        (6, "freeze { label [16777217 i8 } %u"),
        (7, "freeze { [16777217 i8 label } %u"),
        (10, "freeze [3 i8 %u"),
        (5, "freeze [3 i8 1"),
        (0, "q=freeze [3 i8 -1"),
    ]),
    // A phi and a fence ask for nothing where they stand.
    ("nothing asked", &[(0, "fence phi label . q=phi label %u :e .")]),
];

const MEMORY: &[Chain] = &[
    ("load", &[
        (6, "load { label [16777217 i8 } %u -"),
        (7, "load { [16777217 i8 label } %u -"),
        (11, "load [3 i8 %u -"),
        (10, "load i8 %u -"),
        (5, "load i8 %p -"),
        (0, "q=load i8 %p -"),
    ]),
    // A field's alignment is asked for before its size, also in a packed struct.
    ("load of a struct in a struct", &[
        (6, "load { { [16777217 i8 label } } %u -"),
        (6, "load <{ { [16777217 i8 label } } %u -"),
        (7, "load { <{ [16777217 i8 label } } %u -"),
        (6, "load { <{ [16777216 i8 label } } %u -"),
        (7, "load { <{ [16777216 i8 i8 } } %u -"),
        (11, "load { <{ [16777215 i8 i8 } } %u -"),
    ]),
    ("load of nothing", &[(11, "load void %u -"), (11, "load { } %u -"), (11, "load [0 i64 %u -")]),
    ("store", &[
        (6, "store { label [16777217 i8 } %u %u -"),
        (7, "store [16777217 i8 %u %u -"),
        (11, "store [3 i8 %u %u -"),
        (10, "store [4 i8 %u %u -"),
        (9, "store [4 i8 %u %p -"),
        (10, "store i32 %u %p -"),
        (0, "store i32 1 %p -"),
    ]),
    // The frame pass, before any block.
    ("fixed place", &[
        (5, "x=add label %u %u alloca { label [16777217 i8 } label 1 -"),
        (6, "x=add label %u %u q=alloca { [16777217 i8 label } label 1 -"),
        (7, "x=add label %u %u q=alloca [16777217 i8 label 1 -"),
        (7, "x=add label %u %u q=alloca [16777216 i8 label 129 -"),
        (9, "x=add label %u %u q=alloca [16777216 i8 label 128 -"),
        (10, "x=add i8 %u %u q=alloca [16777216 i8 label 128 -"),
        (0, "x=add i8 1 1 q=alloca [16777216 i8 label 128 -"),
    ]),
    ("two fixed places", &[
        (7, "q=alloca [16777216 i8 i8 129 - alloca label - -"),
        (5, "q=alloca [16777216 i8 i8 128 - alloca label - -"),
        (6, "q=alloca [16777216 i8 i8 128 - x=alloca label - -"),
        (7, "q=alloca [16777216 i8 i8 128 - x=alloca i8 - -"),
        (0, "q=alloca [16777216 i8 i8 128 - x=alloca { } - -"),
    ]),
    // A varying place has its name asked for in the frame pass, and is measured in its block: the size before the alignment.
    ("varying place", &[
        (5, "x=add label %u %u alloca label i32 %u -"),
        (9, "x=add label %u %u q=alloca label i32 %u -"),
        (6, "q=alloca { label [16777217 i8 } i32 %u -"),
        (7, "q=alloca { [16777217 i8 label } i32 %u -"),
        (10, "q=alloca i8 i32 %u -"),
        (0, "q=alloca i8 i32 %p -"),
    ]),
    ("varying place, stated align", &[
        (6, "q=alloca label i32 %u #16"),
        (7, "q=alloca { [16777217 i8 label } i32 %u #16"),
        (10, "q=alloca i8 i32 %u #16"),
        (0, "q=alloca i8 i32 %p #16"),
    ]),
    ("atomic load", &[
        (6, "atomicload { label [16777217 i8 } %u"),
        (7, "atomicload { [16777217 i8 label } %u"),
        (12, "atomicload i32 %u"),
        (10, "atomicload { i64 } %u"),
        (5, "atomicload { i64 } %p"),
        (0, "q=atomicload { i64 } %p"),
    ]),
    ("atomic store", &[
        (6, "atomicstore { label [16777217 i8 } %u %u"),
        (7, "atomicstore { [16777217 i8 label } %u %u"),
        (12, "atomicstore { } %u %u"),
        (10, "atomicstore [8 i8 %u %u"),
        (10, "atomicstore [8 i8 %u %p"),
        (0, "atomicstore [8 i8 -1 %p"),
    ]),
    ("cmpxchg", &[
        (6, "cmpxchg { label [16777217 i8 } %u %u %u"),
        (7, "cmpxchg { [16777217 i8 label } %u %u %u"),
        (12, "cmpxchg i16 %u %u %u"),
        (5, "cmpxchg i64 %u %u %u"),
        (10, "q=cmpxchg i64 %u %u %u"),
        (10, "q=cmpxchg i64 %p %u %u"),
        (10, "q=cmpxchg i64 %p 1 %u"),
        (0, "q=cmpxchg i64 %p 1 2"),
    ]),
    ("extractvalue", &[
        (16, "extractvalue @p #2"),
        (16, "extractvalue %u #2"),
        (16, "extractvalue %p #2"),
        (16, "q=fence extractvalue %q #2"),
        (5, "q=fence extractvalue %q #1"),
        (0, "q=fence x=extractvalue %q #1"),
    ]),
];

const STEPS_AND_CALLS: &[Chain] = &[
    ("getelementptr", &[
        (6, "getelementptr { label [16777217 i8 } %u label %u label %u ."),
        (7, "getelementptr { [16777217 i8 label } %u label %u label %u ."),
        (9, "getelementptr i32 %u label %u i32 %u ."),
        (14, "getelementptr i32 %u i32 %u label %u ."),
        (10, "getelementptr i32 %u i32 %u ."),
        (10, "getelementptr i32 %p i32 %u ."),
        (5, "getelementptr i32 %p i32 0 ."),
        (0, "q=getelementptr i32 %p i32 0 ."),
    ]),
    ("getelementptr without index", &[
        (10, "getelementptr label %u ."),
        (5, "getelementptr label %p ."),
        (0, "q=getelementptr label %p ."),
    ]),
    ("getelementptr into an array", &[
        (9, "getelementptr [2 i8 %u i8 0 label %u i8 0 ."),
        (14, "getelementptr [2 i8 %u i8 0 i8 %u label %u ."),
        (10, "getelementptr [2 i8 %u i8 0 i8 %u ."),
        (10, "getelementptr [2 i8 %p i8 0 i8 %u ."),
        (5, "getelementptr [2 i8 %p i8 0 i8 1 ."),
        (0, "q=getelementptr [2 i8 %p i8 0 i8 1 ."),
    ]),
    ("getelementptr into a struct", &[
        (14, "struct:s { i8 i32 }| getelementptr %%s %u i8 %u i8 %u ."),
        (14, "struct:s { i8 i32 }| getelementptr %%s %u i8 %u i8 undef ."),
        (14, "struct:s { i8 i32 }| getelementptr %%s %u i8 %u i8 2 ."),
        (14, "struct:s { i8 i32 }| getelementptr %%s %u i8 %u i8 -1 ."),
        (10, "struct:s { i8 i32 }| getelementptr %%s %u i8 %u i8 1 ."),
        (10, "struct:s { i8 i32 }| getelementptr %%s %p i8 %u i8 1 ."),
        (5, "struct:s { i8 i32 }| getelementptr %%s %p i8 %p i8 1 ."),
        (0, "struct:s { i8 i32 }| q=getelementptr %%s %p i8 %p i8 1 ."),
    ]),
    ("call of a global", &[
        (9, "call i32 @g label %u i32 %u ."),
        (10, "call i32 @g i32 %u label 1 ."),
        (9, "call i32 @g i32 1 label %u ."),
        (10, "call i32 @g i32 1 i8 %u ."),
        (15, "call i32 @g i32 1 i8 1 ."),
        (0, "def:g | call i32 @g i32 1 i8 1 ."),
    ]),
    ("call of a local", &[
        (9, "call i32 %u label %u ."),
        (10, "call i32 %u i32 %u ."),
        (10, "call i32 %u i32 1 ."),
        (0, "call i32 %p i32 1 ."),
    ]),
    ("call of null", &[(9, "call i32 null label %u ."), (10, "call i32 null i32 %u ."), (15, "call i32 null i32 1 .")]),
    ("syscall", &[
        (9, "call label @__uvm_a label %u ."),
        (10, "call label @__uvm_a i8 %u label 1 ."),
        (9, "call label @__uvm_a i8 1 label 1 ."),
        (0, "call label @__uvm_a i8 1 ."),
    ]),
    ("memcmp", &[
        (9, "call label @memcmp label %u ."),
        (10, "call label @memcmp i8 %u label 1 ."),
        (9, "call label @memcmp i8 1 label 1 ."),
        (0, "call label @memcmp i8 1 ."),
    ]),
];

/// Blocks of the same function.
const BLOCKS: &[Chain] = &[
    ("ret", &[(9, "block:e ret label %u"), (10, "block:e ret i32 %u"), (0, "block:e ret i32 1")]),
    ("edge", &[
        (17, "block:e br - :l - block:k phi label . ret label %u"),
        (5, "block:e br - :l - block:l phi label . phi label . ret label %u"),
        (18, "block:e br - :l - block:l x=phi label 1 :l . phi label . ret label %u"),
        (5, "block:e br - :l - block:l x=phi label %u :e . phi label . ret label %u"),
        (18, "block:e br - :l - block:l x=phi label %u :e . y=phi label . ret label %u"),
        (9, "block:e br - :l - block:l x=phi label %u :e . y=phi label %u :e . ret label %u"),
        (10, "block:e br - :l - block:l x=phi i8 %u :e . y=phi label %u :e . ret label %u"),
        (9, "block:e br - :l - block:l x=phi i8 1 :e . y=phi label %u :e . ret label %u"),
        (10, "block:e br - :l - block:l x=phi i8 1 :e . y=phi i8 %u :e . ret label %u"),
        (9, "block:e br - :l - block:l x=phi i8 1 :e . y=phi i8 1 :e . ret label %u"),
        (0, "block:e br - :l - block:l x=phi i8 1 :e . y=phi i8 1 :e . ret -"),
    ]),
    // A jump never looks at its false target.
    ("jump", &[(17, "block:e br - :k :k"), (0, "block:e br - :e :k")]),
    ("condition", &[
        (19, "block:e br %u :k -"),
        (10, "block:e br %u :k :k"),
        (17, "block:e br 1 :k :l block:l x=phi i8 . ret -"),
        (18, "block:e br 1 :l :k block:l x=phi i8 . ret -"),
        (10, "block:e br 1 :l :k block:l x=phi i8 %u :e . ret -"),
        (17, "block:e br 1 :l :k block:l x=phi i8 1 :e . ret -"),
        (18, "block:e br 1 :l :k block:l x=phi i8 1 :e . ret - block:k y=phi i8 . ret -"),
        (0, "block:e br 1 :l :k block:l x=phi i8 1 :e . ret - block:k y=phi i8 2 :e . ret -"),
    ]),
    ("switch", &[
        (9, "block:e switch label %u :k 1 :k ."),
        (10, "block:e switch i8 %u :k 1 :k ."),
        (17, "block:e switch i8 1 :k 1 :l . block:l x=phi i8 . ret -"),
        (18, "block:e switch i8 1 :l 1 :k . block:l x=phi i8 . ret -"),
        (17, "block:e switch i8 1 :l 1 :k . block:l x=phi i8 1 :e . ret -"),
        (18, "block:e switch i8 1 :l 1 :k 1 :m . block:l x=phi i8 1 :e . ret - block:k y=phi i8 . ret -"),
        (17, "block:e switch i8 1 :l 1 :k 1 :m . block:l x=phi i8 1 :e . ret - block:k y=phi i8 2 :e . ret -"),
        (0, "block:e switch i8 1 :l 1 :k 1 :e . block:l x=phi i8 1 :e . ret - block:k y=phi i8 2 :e . ret -"),
    ]),
    // Without cases its value is never pushed.
    ("switch without cases", &[(9, "block:e switch void %u :k ."), (17, "block:e switch i8 %u :k ."), (0, "block:e switch i8 %u :e .")]),
    // A block's instructions in order, then its terminator, then the next block.
    ("blocks in order", &[
        (9, "block:e add void 1 1 load i8 %u - br - :k - block:l store [3 i8 1 1 - ret label 1"),
        (10, "block:e q=add i8 1 1 load i8 %u - br - :k - block:l store [3 i8 1 1 - ret label 1"),
        (17, "block:e q=add i8 1 1 x=load i8 %p - br - :k - block:l store [3 i8 1 1 - ret label 1"),
        (11, "block:e q=add i8 1 1 x=load i8 %p - br - :l - block:l store [3 i8 1 1 - ret label 1"),
        (9, "block:e q=add i8 1 1 x=load i8 %p - br - :l - block:l store i8 1 1 - ret label 1"),
        (0, "block:e q=add i8 1 1 x=load i8 %p - br - :l - block:l store i8 1 1 - ret i8 1"),
    ]),
    // The frame pass goes over every block before the first instruction's own faults.
    ("frame pass", &[
        (5, "block:e add void %u %u br - :k - block:l alloca label - - ret -"),
        (6, "block:e add void %u %u br - :k - block:l q=alloca label - - ret -"),
        (9, "block:e add void %u %u br - :k - block:l q=alloca i8 - - ret -"),
    ]),
];
