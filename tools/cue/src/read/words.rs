//! Words that tell one thing from another: instructions, types, constants.

/// The words of arithmetic, conversions and their like that a book has. In one version or another of LLVM, constant
/// expressions are written with them too.
#[rustfmt::skip]
const HELD_OPERATIONS: &[&str] = &[
    "add", "sub", "mul", "udiv", "sdiv", "urem", "srem", "and", "or", "xor", "shl", "lshr", "ashr", "trunc", "zext",
    "sext", "ptrtoint", "inttoptr", "bitcast", "icmp", "select", "getelementptr", "extractvalue",
];

/// Those that no book has.
#[rustfmt::skip]
const UNHELD_OPERATIONS: &[&str] = &[
    "fneg", "fadd", "fsub", "fmul", "fdiv", "frem", "fcmp", "fptrunc", "fpext", "fptoui", "fptosi", "uitofp", "sitofp",
    "addrspacecast", "ptrtoaddr", "extractelement", "insertelement", "shufflevector", "insertvalue",
];

/// The words of all other instructions and terminators that a book has.
#[rustfmt::skip]
const HELD_STATEMENTS: &[&str] = &[
    "load", "store", "alloca", "phi", "call", "tail", "musttail", "notail", "freeze", "cmpxchg", "fence", "ret", "br",
    "switch", "unreachable",
];

/// Those that no book has.
#[rustfmt::skip]
const UNHELD_STATEMENTS: &[&str] = &[
    "atomicrmw", "va_arg", "landingpad", "catchpad", "cleanuppad", "indirectbr", "invoke", "callbr", "resume",
    "catchswitch", "catchret", "cleanupret",
];

/// Other words that constants begin with.
#[rustfmt::skip]
const CONSTANTS: &[&str] = &[
    "true", "false", "null", "undef", "poison", "zeroinitializer", "none", "c", "asm", "blockaddress",
    "dso_local_equivalent", "no_cfi", "splat", "ptrauth",
];

/// Types that no book has.
const UNHELD_TYPES: &[&str] =
    &["half", "bfloat", "float", "double", "x86_fp80", "fp128", "ppc_fp128", "x86_mmx", "x86_amx", "token"];

/// Whether lines call the machine's own for a name: `bcmp` and `memcmp`.
pub fn is_memcmp(name: &str) -> bool {
    matches!(name, "bcmp" | "memcmp")
}

/// How an atomic instruction orders others.
const ORDERINGS: &[&str] = &["unordered", "monotonic", "acquire", "release", "acq_rel", "seq_cst"];

/// What begins something at the outermost level of a text.
const ENTITIES: &[&str] =
    &["define", "declare", "source_filename", "module", "attributes", "uselistorder", "uselistorder_bb", "deplibs"];

/// Whether a word begins an instruction or a terminator of LLVM, in a book or not.
pub fn is_instruction(word: &str) -> bool {
    HELD_STATEMENTS.contains(&word) || HELD_OPERATIONS.contains(&word) || is_unheld(word)
}

/// Whether it begins one that no book has.
pub fn is_unheld(word: &str) -> bool {
    UNHELD_OPERATIONS.contains(&word) || UNHELD_STATEMENTS.contains(&word)
}

/// Whether a word begins a constant, so that it is no attribute.
pub fn begins_constant(word: &str) -> bool {
    CONSTANTS.contains(&word) || HELD_OPERATIONS.contains(&word) || UNHELD_OPERATIONS.contains(&word)
}

/// Whether a word is a type that no book has.
pub fn is_unheld_type(word: &str) -> bool {
    UNHELD_TYPES.contains(&word)
}

/// The width of `i32` and its like, as digits; none for any other word.
pub fn integer_width(word: &str) -> Option<&str> {
    let digits = word.strip_prefix('i')?;
    (!digits.is_empty() && digits.bytes().all(|byte| byte.is_ascii_digit())).then_some(digits)
}

/// Whether an argument with this attribute is copied for the call, which no line does.
pub fn is_copied(attribute: &str) -> bool {
    matches!(attribute, "byval" | "inalloca" | "preallocated")
}

pub fn is_ordering(word: &str) -> bool {
    ORDERINGS.contains(&word)
}

/// Whether a word begins something at the outermost level of a text. `target` does too, where it is no type.
pub fn begins_entity(word: &str) -> bool {
    ENTITIES.contains(&word)
}
