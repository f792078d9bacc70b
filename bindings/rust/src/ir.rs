//! What a [`BookWriter`](crate::BookWriter) is given: functions of typed blocks, as a front end has them.
//!
//! The types say more than a book holds: an integer of any width, a [`Type::Other`], a [`Value::Other`], an
//! [`Op::Other`]. So a front end hands over what it met, and the writer alone decides what is turned down, and says why.
//!
//! Names are without their sigil (`%`, `@`). They are [`Cow`]s, so that a front end lends those that it holds.
use std::borrow::Cow;
use std::collections::{HashMap, HashSet};

/// A name, without `%` or `@`.
pub type Name<'a> = Cow<'a, str>;

/// What the functions of one translation unit share.
#[derive(Clone, Debug, Default)]
pub struct Module<'a> {
    /// `%name = type ..`; no body: opaque.
    pub structs: HashMap<Name<'a>, Option<StructBody<'a>>>,
    /// The functions that have a body, in this unit or in one that it is linked with: those that may be called by name.
    pub defined: HashSet<Name<'a>>,
}

/// `{ .. }`, or packed `<{ .. }>`.
#[derive(Clone, Debug, PartialEq, Eq)]
pub struct StructBody<'a> {
    /// Whether fields follow one another without padding.
    pub packed: bool,
    /// In their order.
    pub fields: Vec<Type<'a>>,
}

/// A type.
#[derive(Clone, Debug, PartialEq, Eq)]
pub enum Type<'a> {
    /// `void`
    Void,
    /// `i32`. A book has the widths 1, 8, 16, 32 and 64.
    Int(u32),
    /// `ptr`, and any typed pointer.
    Ptr,
    /// `[len x elem]`
    Array { packed: bool, len: u64, elem: Box<Type<'a>> },
    /// `%name`: a struct of the module.
    Named(Name<'a>),
    /// `{ .. }` or `<{ .. }>`
    Struct(StructBody<'a>),
    /// Any function type.
    Func,
    /// `label`
    Label,
    /// `metadata`
    Metadata,
    /// A type that no book has, as a sentence names it: `float`, `<4 x i32>`.
    Other(Name<'a>),
}

/// An operand.
#[derive(Clone, Debug, PartialEq, Eq)]
pub enum Value<'a> {
    /// `%name`
    Local(Name<'a>),
    /// `@name`
    Global(Name<'a>),
    /// A book has those from -2^63 to 2^64 - 1, as words. `true` is 1.
    Int(i128),
    /// `null`
    Null,
    /// `undef`
    Undef,
    /// `poison`
    Poison,
    /// `zeroinitializer`
    ZeroInit,
    /// Any other value, as a sentence names it: `a constant expression`.
    Other(Name<'a>),
}

/// A type and a value of it.
#[derive(Clone, Debug, PartialEq, Eq)]
pub struct TypedVal<'a> {
    /// Its type.
    pub ty: Type<'a>,
    /// The value itself.
    pub val: Value<'a>,
}

/// A function with its body.
#[derive(Clone, Debug)]
pub struct Function<'a> {
    /// `@name`
    pub name: Name<'a>,
    /// What it returns.
    pub ret_ty: Type<'a>,
    /// In their order.
    pub params: Vec<Param<'a>>,
    /// In their order; the first is the entry.
    pub blocks: Vec<Block<'a>>,
}

/// A parameter.
#[derive(Clone, Debug)]
pub struct Param<'a> {
    /// None: nothing can read it.
    pub name: Option<Name<'a>>,
    /// Its type.
    pub ty: Type<'a>,
}

/// A basic block.
#[derive(Clone, Debug)]
pub struct Block<'a> {
    /// What branches and phis call it.
    pub label: Name<'a>,
    /// In their order.
    pub insts: Vec<Inst<'a>>,
    /// What it ends with.
    pub term: Terminator<'a>,
}

/// An instruction and the name of its result.
#[derive(Clone, Debug)]
pub struct Inst<'a> {
    /// `%dest =`
    pub dest: Option<Name<'a>>,
    /// What it does.
    pub op: Op<'a>,
}

/// What an instruction does. Flags, orderings and attributes have no place here: they change no line.
#[derive(Clone, Debug)]
pub enum Op<'a> {
    /// `add ty lhs, rhs`, and the twelve like it.
    Bin { op: BinOp, ty: Type<'a>, lhs: Value<'a>, rhs: Value<'a> },
    /// `trunc from_ty val to to_ty`, and the five like it.
    Conv { op: ConvOp, from_ty: Type<'a>, val: Value<'a>, to_ty: Type<'a> },
    /// `icmp pred ty lhs, rhs`
    ICmp { pred: ICmpPred, ty: Type<'a>, lhs: Value<'a>, rhs: Value<'a> },
    /// `select i1 cond, ty tval, ty fval`
    Select { cond: Value<'a>, ty: Type<'a>, tval: Value<'a>, fval: Value<'a> },
    /// `load ty, ptr ptr, align align`
    Load { ty: Type<'a>, ptr: Value<'a>, align: Option<u64> },
    /// `store ty val, ptr ptr, align align`
    Store { ty: Type<'a>, val: Value<'a>, ptr: Value<'a>, align: Option<u64> },
    /// `alloca ty, count, align align`
    Alloca { ty: Type<'a>, count: Option<TypedVal<'a>>, align: Option<u64> },
    /// `getelementptr base_ty, ptr ptr, indices`
    GetElementPtr { base_ty: Type<'a>, ptr: Value<'a>, indices: Vec<TypedVal<'a>> },
    /// `phi ty [ value, %block ], ..`: each value with the block that it comes from.
    Phi { ty: Type<'a>, incoming: Vec<(Value<'a>, Name<'a>)> },
    /// `call ret_ty callee(args)`
    Call { ret_ty: Type<'a>, callee: Value<'a>, args: Vec<TypedVal<'a>> },
    /// `freeze ty val`
    Freeze { ty: Type<'a>, val: Value<'a> },
    /// `load atomic ty, ptr ptr`
    AtomicLoad { ty: Type<'a>, ptr: Value<'a> },
    /// `store atomic ty val, ptr ptr`
    AtomicStore { ty: Type<'a>, val: Value<'a>, ptr: Value<'a> },
    /// `cmpxchg ptr ptr, ty cmp, ty new`
    Cmpxchg { ty: Type<'a>, ptr: Value<'a>, cmp: Value<'a>, new: Value<'a> },
    /// `extractvalue agg, index`
    ExtractValue { agg: Value<'a>, index: u32 },
    /// `fence`
    Fence,
    /// An instruction that no book has, by its word in LLVM: `fadd`.
    Other(Name<'a>),
}

/// What a block ends with.
#[derive(Clone, Debug)]
pub enum Terminator<'a> {
    /// `ret ty val` or `ret void`
    Ret { val: Option<TypedVal<'a>> },
    /// `br label %if_true`, or `br i1 cond, label %if_true, label %if_false`
    Br { cond: Option<Value<'a>>, if_true: Name<'a>, if_false: Option<Name<'a>> },
    /// `switch ty val, label %default [ .. ]`: each case with the block that it goes to.
    Switch { ty: Type<'a>, val: Value<'a>, default: Name<'a>, cases: Vec<(i128, Name<'a>)> },
    /// `unreachable`
    Unreachable,
    /// A terminator that no book has, by its word in LLVM: `invoke`.
    Other(Name<'a>),
}

/// Binary operations, in the order of a book's kinds from 40 on.
#[derive(Clone, Copy, Debug, PartialEq, Eq)]
pub enum BinOp {
    Add,
    Sub,
    Mul,
    UDiv,
    SDiv,
    URem,
    SRem,
    And,
    Or,
    Xor,
    Shl,
    LShr,
    AShr,
}

/// Conversions, in the order of a book's kinds from 53 on.
#[derive(Clone, Copy, Debug, PartialEq, Eq)]
pub enum ConvOp {
    Trunc,
    ZExt,
    SExt,
    PtrToInt,
    IntToPtr,
    BitCast,
}

/// Predicates of `icmp`, in the order of a book's kinds from 60 on.
#[derive(Clone, Copy, Debug, PartialEq, Eq)]
pub enum ICmpPred {
    Eq,
    Ne,
    Ugt,
    Uge,
    Ult,
    Ule,
    Sgt,
    Sge,
    Slt,
    Sle,
}
