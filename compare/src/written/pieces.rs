//! Books of several functions: what each function has of its own, what they share, and which refusal of several comes first.
use super::{Written, LARGEST};

/// A book under its title, with the refusal that it gets, 0 for none.
type Row = (&'static str, u8, &'static str);

pub fn pieces() -> Vec<Written> {
    let at = |counter: u64| {
        move |(title, refusal, text): &Row| Written { title: title.to_string(), text: text.to_string(), counter, refusal: *refusal }
    };
    let all = SHARED.iter().chain(OWN).chain(BROKEN).chain(ORDER);
    all.map(at(0)).chain(FAR.iter().map(at(LARGEST))).collect()
}

/// All functions of the book count as defined; the structs are everybody's; labels are counted on.
const SHARED: &[Row] = &[
    ("two functions that call each other", 0,
        "func:f void . block:e call void @g i8 1 . ret - . func:g i8 param:p i8 . block:e call void @f . ret i8 %p . ."),
    ("three functions, the one in the middle called", 0,
        "func:f void . block:e call void @g . ret - . func:g void . block:e ret - . func:h void . block:e call void @g . ret - . ."),
    ("a function marked defined", 0, "def:g func:f void . block:e call void @g . ret - . func:g void . block:e call void @f . ret - . ."),
    ("a function marked reserved", 0, "res:g func:f ptr . block:e ret ptr @g . func:g void . block:e call void @f . ret - . ."),
    ("a function marked reserved, called", 3, "res:g func:f void . block:e call void @g . ret - . func:g void . block:e ret - . ."),
    ("a function without blocks, called", 0, "func:f void . . func:g void . block:e call void @f . ret - . ."),
    ("a function that calls nobody's", 15, "func:f void . block:e ret - . func:g void . block:e call void @h . ret - . ."),
    ("a call through a function's address", 0, "func:f ptr . block:e ret ptr @g . func:g void param:p ptr . block:e call void %p . ret - . ."),
    ("a function named like a syscall", 0, "func:__uvm_a void . block:e call void @__uvm_a . ret - . func:f void . block:e call i8 @__uvm_a . ret - . ."),
    ("a function named memcmp", 0, "func:f void . block:e call i8 @memcmp . ret - . func:memcmp void . block:e ret - . ."),
    ("a function named llvm., not called", 0, "func:f void . block:e ret - . func:llvm.a void . block:e ret - . ."),
    ("a function named llvm., called", 3, "func:f void . block:e ret - . func:llvm.a void . block:e call void @llvm.a . ret - . ."),
    ("a function with .with.overflow., called by another", 0,
        "func:a.with.overflow.b i8 . block:e ret i8 1 . func:f i8 . block:e q=call i8 @a.with.overflow.b . x=extractvalue %q #1 ret i8 %x . ."),
    ("labels are counted on", 0,
        "func:f i8 . block:e q=select 1 i8 1 2 ret i8 %q . func:g void . block:e br 1 :e :e . func:h void . block:e switch i8 1 :e 1 :e 2 :e . . ."),
    ("a struct of both", 0,
        "struct:s { i8 ptr } func:f void . block:e q=alloca %%s - - ret - . func:g void . block:e q=alloca i8 - - r=alloca %%s - - ret - . ."),
    ("the second function returns a struct", 0, "struct:s { i8 } func:f void . . func:g %%s param:p i8 param i8 . . ."),
];

/// Parameters, results, slots, blocks and places are each function's own.
const OWN: &[Row] = &[
    ("one name for all, in both", 0,
        "func:f i8 param:p i8 . block:e q=add i8 %p 1 ret i8 %q . func:g i8 param:p i8 . block:e q=sub i8 %p 1 ret i8 %q . ."),
    ("a result of the function before", 10, "func:f void . block:e q=add i8 1 1 ret - . func:g i8 . block:e ret i8 %q . ."),
    ("a parameter of the function before", 10, "func:f void param:p i8 . block:e ret - . func:g i8 . block:e ret i8 %p . ."),
    ("a result of the function behind", 10, "func:f i8 . block:e ret i8 %q . func:g void . block:e q=add i8 1 1 ret - . ."),
    ("a block of the function before", 17, "func:f void . block:b ret - . func:g void . block:e br - :b - . ."),
    ("a block of the function behind", 17, "func:f void . block:e br - :b - . func:g void . block:b ret - . ."),
    ("phis of one block's name in both", 0,
        "func:f void . block:e br - :l - block:l x=phi i8 1 :e . ret - . func:g void . block:e br - :l - block:l x=phi i8 2 :e . y=phi i8 3 :e . ret - . ."),
    ("phis of the function before", 0,
        "func:f void . block:e br - :l - block:l x=phi i8 1 :e . ret - . func:g void . block:k br - :l - block:l ret - . ."),
    ("a parameter there, a result here", 0,
        "func:f i8 param:q i8 . block:e ret i8 %q . func:g i8 . block:e q=add i8 1 1 ret i8 %q . func:h i8 param:x ptr param:q i8 . block:e ret i8 %q . ."),
    ("a pair there, one slot here", 0,
        "func:f void . block:e q=cmpxchg i64 null 1 2 x=fence ret - . func:g i8 . block:e q=add i8 1 1 x=add i8 %q 1 ret i8 %x . ."),
    ("an extractvalue of the pair before", 16,
        "func:f void . block:e q=cmpxchg i64 null 1 2 ret - . func:g void . block:e x=extractvalue %q #0 ret - . ."),
    ("a frame there, none here", 0,
        "func:f void . block:e q=alloca i64 - - ret - . func:g i8 . block:e q=add i8 1 1 ret i8 %q . func:h void . block:e ret - . ."),
    ("a frame in each", 0,
        "func:f void . block:e q=alloca i8 - - r=alloca i32 - - ret - . func:g void . block:e r=alloca i32 - - q=alloca i8 - - ret - . ."),
    ("a fixed place there, a varying one of the name here", 0,
        "func:f void . block:e q=alloca i8 - - ret - . func:g void param:p i8 . block:e q=alloca i16 i8 %p - ret - . ."),
    ("a varying place there, a fixed one of the name here", 0,
        "func:f void param:p i8 . block:e q=alloca i16 i8 %p - ret - . func:g void . block:e q=alloca i8 - - ret - . ."),
    ("a varying place whose name is fixed in the function before is measured", 6,
        "func:f void . block:e q=alloca i8 - - ret - . func:g void param:p i8 . block:e q=alloca label i8 %p - ret - . ."),
    ("frames of 2^31 in each", 0,
        "func:f void . block:e q=alloca i8 i64 2147483648 - ret - . func:g void . block:e q=alloca i8 i64 2147483648 - ret - . ."),
    ("a block, a local and a function of one name", 0,
        "func:f i8 param:g i8 . block:g f=add i8 %g 1 ret i8 %f . func:g i8 param:f i8 . block:f g=add i8 %f 1 h=call i8 @g . ret i8 %g . ."),
];

/// Refusal 1: the list of functions.
const BROKEN: &[Row] = &[
    ("no function", 1, "def:f ."),
    ("nothing but the end", 1, "."),
    ("not closed", 1, "func:f void . block:e ret - ."),
    ("two functions, not closed", 1, "func:f void . . func:g void . ."),
    ("two functions, closed", 0, "func:f void . . func:g void . . ."),
    ("closed twice", 1, "func:f void . . . ."),
    ("closed between", 1, "func:f void . . . func:g void . . ."),
    ("a function twice", 1, "func:f void . . func:f void . . ."),
    ("a function twice, another between", 1, "func:f void . . func:g void . . func:f i8 param:p i8 . . ."),
    ("a mark behind a function", 1, "func:f void . . def:g func:g void . . ."),
    ("a struct behind a function", 1, "func:f void . . struct:s opaque func:g void . . ."),
    ("blocks of a function not closed", 1, "func:f void . block:e ret - func:g void . block:e ret - . ."),
    ("parameters of a function not closed", 1, "func:f void func:g void . . . ."),
    ("a block behind the functions", 1, "func:f void . . . block:e ret - ."),
];

/// Each row repairs the fault that the row before was refused for: 1 and 3 over the whole book, then function by function, each one's frame pass
/// before its instructions and behind the instructions of the function before.
const ORDER: &[Row] = &[
    ("functions in order", 1,
        "func:f void . block:e alloca label - - add label %u %u ret - . func:g void . block:e alloca label - - call void @llvm.a . br - :k - . func:g void . . ."),
    ("functions in order", 3,
        "func:f void . block:e alloca label - - add label %u %u ret - . func:g void . block:e alloca label - - call void @llvm.a . br - :k - . ."),
    ("functions in order", 5,
        "func:f void . block:e alloca label - - add label %u %u ret - . func:g void . block:e alloca label - - call void @h . br - :k - . ."),
    ("functions in order", 6,
        "func:f void . block:e q=alloca label - - add label %u %u ret - . func:g void . block:e alloca label - - call void @h . br - :k - . ."),
    ("functions in order", 9,
        "func:f void . block:e q=alloca i8 - - add label %u %u ret - . func:g void . block:e alloca label - - call void @h . br - :k - . ."),
    ("functions in order", 10,
        "func:f void . block:e q=alloca i8 - - add i8 %u %u ret - . func:g void . block:e alloca label - - call void @h . br - :k - . ."),
    ("functions in order", 5,
        "func:f void . block:e q=alloca i8 - - x=add i8 1 1 ret - . func:g void . block:e alloca label - - call void @h . br - :k - . ."),
    ("functions in order", 6,
        "func:f void . block:e q=alloca i8 - - x=add i8 1 1 ret - . func:g void . block:e q=alloca label - - call void @h . br - :k - . ."),
    ("functions in order", 7,
        "func:f void . block:e q=alloca i8 - - x=add i8 1 1 ret - . func:g void . block:e q=alloca [16777217 i8 - - call void @h . br - :k - . ."),
    ("functions in order", 15,
        "func:f void . block:e q=alloca i8 - - x=add i8 1 1 ret - . func:g void . block:e q=alloca i8 - - call void @h . br - :k - . ."),
    ("functions in order", 17,
        "func:f void . block:e q=alloca i8 - - x=add i8 1 1 ret - . func:g void . block:e q=alloca i8 - - call void @f . br - :k - . ."),
    ("functions in order", 0,
        "func:f void . block:e q=alloca i8 - - x=add i8 1 1 ret - . func:g void . block:e q=alloca i8 - - call void @f . br - :e - . ."),
    ("an instruction, then a frame above 2^31", 11,
        "func:f void . block:e q=load [3 i8 null - ret - . func:g void . block:e q=alloca i8 i64 2147483649 - ret - . ."),
    ("an instruction, then a frame above 2^31", 7,
        "func:f void . block:e q=load i8 null - ret - . func:g void . block:e q=alloca i8 i64 2147483649 - ret - . ."),
    ("a fault in the third of four", 19,
        "func:f void . . func:g void . block:e ret - . func:h void . block:e br 1 :e - . func:i void . block:e ret label 1 . ."),
    ("the same, mended", 9,
        "func:f void . . func:g void . block:e ret - . func:h void . block:e br 1 :e :e . func:i void . block:e ret label 1 . ."),
];

/// The counter given is the largest, and the first function has labels: only the later ones begin above it, which is no fault.
const FAR: &[Row] = &[
    ("labels are counted on above 2^32", 0,
        "func:f i8 . block:e q=select 1 i8 1 2 ret i8 %q . func:g void . block:e br 1 :e :e . func:h void . block:e ret - . ."),
    ("a fault in a function that begins above 2^32", 10,
        "func:f i8 . block:e q=select 1 i8 1 2 ret i8 %q . func:g i8 . block:e ret i8 %u . ."),
];
