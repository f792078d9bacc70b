//! Corners that random books meet seldom, both sides of each.
use super::{blocks, insts, Written};

/// A book under its title, with the refusal that it gets, 0 for none.
type Corner = (&'static str, u8, &'static str);

pub fn places_and_steps() -> Vec<Written> {
    written(PLACES_AND_STEPS, insts)
}

pub fn calls() -> Vec<Written> {
    let called = CALLED.iter().map(|(name, refusal)| one("call of a name", *refusal, insts(&format!("call ptr @{name} ."))));
    let paired = PAIRED.iter().map(|name| one("slots of a call", 0, insts(&format!("def:{name} | q=call ptr @{name} . x=call ptr @{name} ."))));
    written(CALLS, insts).into_iter().chain(called).chain(paired).collect()
}

pub fn values_and_blocks() -> Vec<Written> {
    [written(VALUES, insts), written(BLOCKS, blocks), written(WHOLE, str::to_string)].into_iter().flatten().collect()
}

fn written(corners: &[Corner], whole: fn(&str) -> String) -> Vec<Written> {
    corners.iter().map(|(title, refusal, text)| one(title, *refusal, whole(text))).collect()
}

fn one(title: &str, refusal: u8, text: String) -> Written {
    Written { title: title.to_string(), text, counter: 0, refusal }
}

// Instructions of the one block of `void @f(ptr %p)`.

const PLACES_AND_STEPS: &[Corner] = &[
    // A count's type is never asked for.
    ("count of a struct type, an integer", 0, "q=alloca i32 { i8 ptr } 3 -"),
    ("count of an array type, varying", 0, "q=alloca i32 [2 i8 %p -"),
    ("count of label type", 0, "q=alloca i8 label 2 - x=alloca i8 label null -"),
    ("count 0", 0, "q=alloca i32 i8 0 - x=alloca i64 - -"),
    ("count -1 of size 0", 0, "q=alloca { } i64 -1 -"),
    ("count -1 of size 1", 7, "q=alloca i8 i64 -1 -"),
    ("count of a type above the frame, 2^31 bytes", 0, "q=alloca i64 i64 268435456 -"),
    ("count of a type above the frame, one more", 7, "q=alloca i64 i64 268435457 -"),
    ("frame rounded up to 2^31", 0, "q=alloca i8 i64 2147483641 -"),
    // A stated align counts only for a varying count, and not below 8.
    ("fixed place, stated align", 0, "q=alloca i8 - #4096 x=alloca i8 - #64"),
    ("varying place, align 4096", 0, "q=alloca i8 i8 %p #4096"),
    ("varying place, align 4", 0, "q=alloca i64 i8 %p #4"),
    ("varying place of size 0", 0, "q=alloca { } i8 %p -"),
    ("varying place of size 1", 0, "q=alloca { i8 } i8 %p -"),
    ("varying place of size 2", 0, "q=alloca i16 i8 zero -"),
    // The map of fixed places goes by name.
    ("varying place named like a fixed one behind it", 0, "q=alloca label i8 %u - q=alloca i8 - -"),
    ("varying place named like a fixed one before it", 0, "q=alloca i8 - - x=alloca i64 - - q=alloca label i8 %u -"),
    ("two fixed places of one name", 0, "q=alloca i8 - - x=alloca i8 - - q=alloca i8 - -"),
    // Strides.
    ("varying index, stride 1", 0, "q=getelementptr i8 %p i64 %p ."),
    ("varying index, stride 0", 0, "q=getelementptr void %p i64 %p ."),
    ("varying index of ptr type, stride 2", 0, "q=getelementptr i16 %p ptr undef ."),
    ("varying index of i1, stride 4", 0, "q=getelementptr i32 %p i1 %p ."),
    ("varying index of i32, a global", 0, "q=getelementptr [3 i8 %p i32 @g i16 null ."),
    ("constant index of label type", 0, "q=getelementptr { i8 i32 } %p label 1 metadata 1 ."),
    ("varying index of label type", 9, "q=getelementptr { i8 i32 } %p label %p metadata 1 ."),
    ("constants around a varying index", 0, "q=getelementptr [2 [2 i32 %p i8 1 i8 %p i8 1 ."),
    ("constants that cancel, a varying index between", 0, "q=getelementptr [2 [2 i32 %p i8 1 i8 %p i8 -4 ."),
    ("array of length 0", 0, "q=getelementptr [0 i32 %p i8 7 i8 2 ."),
    ("packed array", 0, "q=getelementptr <3 i16 %p i8 1 i8 2 ."),
    ("packed struct, field 1", 0, "q=getelementptr <{ i8 i32 } %p i8 1 i8 1 ."),
    ("size of a struct with a packed one", 0, "q=getelementptr { <{ i64 } i16 } %p i8 1 ."),
    ("size of a struct with void", 0, "q=getelementptr { void ptr i1 } %p i8 1 i8 2 ."),
    ("size of a struct padded at its end", 0, "q=getelementptr { i16 [3 i8 } %p i8 1 i8 1 ."),
    ("size of a packed struct with padding inside", 0, "q=getelementptr <{ i8 { i8 i32 } } %p i8 1 i8 1 ."),
    ("offset of a named struct", 0, "struct:s { i8 ptr } | q=getelementptr { i8 %%s } %p i8 1 i8 1 i8 1 ."),
    ("no field", 14, "q=getelementptr { } %p i8 0 i8 0 ."),
    ("into a pointer", 14, "q=getelementptr ptr %p i8 0 i8 0 ."),
    ("into void", 14, "q=getelementptr void %p i8 0 i8 0 ."),
];

const CALLS: &[Corner] = &[
    // "A void syscall pushes nothing": every other type has a result.
    ("syscall, result of label type", 0, "q=call label @__uvm_a ."),
    ("syscall, result of function type", 0, "call functype @__uvm_a ."),
    ("syscall, result of struct type", 0, "q=call { i8 } @__uvm_a ."),
    ("syscall, result of an undefined struct", 0, "call %%o @__uvm_a ."),
    ("syscall, result of array type", 0, "q=call [0 i8 @__uvm_a ."),
    ("syscall, void with a name", 0, "q=call void @__uvm_a . x=fence"),
    ("memcmp, void", 0, "call void @memcmp . q=call void @bcmp ."),
    ("plain call, void", 0, "call void @f . q=call void @f ."),
    ("syscall marked defined", 0, "def:__uvm_a | call i8 @__uvm_a ."),
    ("syscall marked reserved", 3, "res:__uvm_a | call i8 @__uvm_a ."),
    ("memcmp marked defined", 0, "def:memcmp | call i8 @memcmp ."),
    ("the function marked reserved", 3, "res:f | call i8 @f ."),
    ("the function marked reserved, as an operand", 0, "res:f | store ptr @f @f -"),
    ("llvm. marked defined", 3, "def:llvm.a | call i8 @llvm.a ."),
    ("a local named llvm.", 10, "call i8 %llvm.a ."),
    ("a parameter called", 0, "call i8 %p ptr %p i1 -1 i8 -1 i16 -1 ."),
];

const VALUES: &[Corner] = &[
    // Masks.
    ("integers at their widths", 0, "call void @f i1 3 i8 256 i16 65536 i32 4294967297 i64 -1 ptr -1 ."),
    ("select on an integer condition", 0, "q=select 3 ptr -1 -1"),
    ("freeze of 3, 8 and 9 bytes", 0, "q=freeze [3 i8 -1 x=freeze { ptr } -1 y=freeze [9 i8 -1"),
    ("freeze of a pointer and of i1", 0, "q=freeze ptr -1 x=freeze i1 -1"),
    ("store of i1, of a pointer", 0, "store i1 -1 %p #1 store ptr -1 %p -"),
    ("load of arrays of 2, 4 and 8 bytes", 0, "q=load [2 i8 %p - x=load { i16 i8 } %p - y=load [1 ptr %p -"),
    ("load of 16 bytes", 11, "q=load [2 ptr %p -"),
    ("atomic of pointer type", 0, "q=atomicload ptr %p atomicstore ptr -1 %p x=cmpxchg ptr %p -1 -1"),
    ("atomic of 16 bytes", 12, "q=atomicload [2 i64 %p"),
    // Names.
    ("store and fence with names take slots", 0, "q=store i8 1 %p - x=fence y=add i8 1 1"),
    ("extractvalue beyond one slot", 0, "q=add i8 1 1 x=extractvalue %q #1 y=extractvalue %q #0"),
    ("extractvalue, index 2", 16, "q=cmpxchg i64 %p 1 1 x=extractvalue %q #2"),
    ("extractvalue, index 2^32 - 1", 16, "q=cmpxchg i64 %p 1 1 x=extractvalue %q #4294967295"),
    ("extractvalue of a parameter that is also a result", 0, "p=cmpxchg i64 %p 1 1 x=extractvalue %p #1"),
    ("a result named like the parameter", 0, "p=add i8 1 1 q=add i8 %p %p"),
    ("two results of one name", 0, "q=add i8 1 1 q=add i8 %q 2 x=add i8 %q 3"),
    ("two results of one name, the first of two slots", 0, "q=cmpxchg i64 %p 1 1 q=add i8 1 1 x=extractvalue %q #1"),
    // Conversions that leave a value as it is.
    ("trunc to i64 and zext to i8", 0, "q=trunc i8 1 i64 x=zext i64 -1 i8"),
    ("ptrtoint to i64, to ptr, to i1", 0, "q=ptrtoint i8 -1 i64 x=ptrtoint ptr -1 ptr y=ptrtoint ptr -1 i1"),
    ("inttoptr to i8", 0, "q=inttoptr ptr -1 i8"),
    ("sext of i1 to every width", 0, "a=sext i1 -1 i1 b=sext i1 -1 i8 c=sext i1 -1 i16 d=sext i1 -1 i32 g=sext i1 -1 i64 h=sext i1 -1 ptr"),
    ("sext of i8 to i8 and ptr", 0, "q=sext i8 -1 i8 x=sext i8 -1 ptr y=sext i16 -1 i1"),
    ("sext of i32 to i32", 13, "q=sext i32 -1 i32"),
    ("sext of i32 to i8", 13, "q=sext i32 -1 i8"),
    ("sext of ptr to ptr", 13, "q=sext ptr -1 ptr"),
];

/// Blocks of the same function.
const BLOCKS: &[Corner] = &[
    ("no block", 0, ""),
    ("two blocks of one name: the later one's phis", 0, "block:e br - :l - block:l x=phi i8 1 :e . ret - block:l y=phi i8 2 :e . ret -"),
    ("a value of the second predecessor of that name", 0, "block:e br - :l - block:l x=phi i8 1 :k 2 :e 3 :e . ret -"),
    ("a phi in the first block, which jumps to itself", 0, "block:e x=phi i8 1 :l 2 :e . br - :e -"),
    ("a phi behind a fence is none of the leading ones", 0, "block:e br - :l - block:l fence x=phi i8 . ret -"),
    ("a phi behind a phi behind a store", 0, "block:e br - :l - block:l x=phi i8 1 :e . store i8 1 1 - y=phi i8 . ret -"),
    ("phis at their widths", 0, "block:e br - :l - block:l x=phi i1 -1 :e . y=phi ptr -1 :e . z=phi i16 -1 :e . ret -"),
    ("a condition at width 1, both edges", 0, "block:e br -1 :l :l block:l x=phi i8 1 :e . ret -"),
    ("switch at 64 bits and at 1", 0, "block:e switch ptr %p :l -1 :e . block:l switch i1 3 :e 3 :l ."),
    ("ret of an integer at its width, with a frame", 0, "block:e q=alloca i8 - - ret i1 3"),
    ("ret of a global", 0, "block:e ret i8 @f"),
    ("unreachable with a frame", 0, "block:e q=alloca i8 - - unreachable"),
    ("a varying place alone", 0, "block:e q=alloca i8 i8 %p - ret ptr -1"),
];

/// Whole books.
const WHOLE: &[Corner] = &[
    ("a parameter without name between", 0, "func:f i8 param:p i8 param ptr param:q i8 . block:e x=add i8 %p %q ret i8 %x . ."),
    ("two parameters of one name", 0, "func:f i8 param:p i8 param:p i8 . block:e ret i8 %p . ."),
    ("a parameter of label type", 0, "func:f label param:p label . block:e ret i8 %p . ."),
    ("a call through a local with .with.overflow. takes one slot", 0,
        "func:f void param:a.with.overflow.b ptr . block:e q=call i8 %a.with.overflow.b . x=fence ret - . ."),
    ("a struct of the function's name", 0, "struct:f { i8 } func:f %%f . block:f q=alloca %%f - - ret - . ."),
];

/// A call of an undefined function of this name, and its refusal.
const CALLED: &[(&str, u8)] = &[
    ("__uvm_", 0), ("__uvm_a", 0), ("__uvm", 15), ("_uvm_a", 15), ("x__uvm_a", 15), ("__uvM_a", 15),
    ("llvm.", 3), ("llvm.a", 3), ("llvm", 15), ("llvm_a", 15), ("xllvm.a", 15), ("Llvm.a", 15),
    ("bcmp", 0), ("bcm", 15), ("bcmpx", 15), ("xbcmp", 15), ("memcmp", 0), ("memcm", 15), ("memcmp.", 15), ("Memcmp", 15), ("memcpy", 15),
    ("__uvm_x.with.overflow.", 0),
];

/// Names that contain `.with.overflow.`, and such that nearly do.
const PAIRED: &[&str] = &[
    ".with.overflow.", "a.with.overflow.b", "a.with.overflow.with.overflow.", "..with.overflow.", ".with.overflow", "with.overflow.",
    ".with_overflow.", ".with.Overflow.", ".with..overflow.",
];
