//! Short ways to write functions.
use mivolanjy::ir::*;
use mivolanjy::{Book, BookWriter, Unwritable};

pub const I32: Type<'static> = Type::Int(32);

pub fn local(name: &str) -> Value<'_> {
    Value::Local(name.into())
}

pub fn global(name: &str) -> Value<'_> {
    Value::Global(name.into())
}

pub fn typed<'a>(ty: Type<'a>, val: Value<'a>) -> TypedVal<'a> {
    TypedVal { ty, val }
}

pub fn named<'a>(dest: &'a str, op: Op<'a>) -> Inst<'a> {
    Inst { dest: Some(dest.into()), op }
}

pub fn unnamed(op: Op<'_>) -> Inst<'_> {
    Inst { dest: None, op }
}

pub fn load<'a>(ty: Type<'a>, ptr: Value<'a>) -> Op<'a> {
    Op::Load { ty, ptr, align: None }
}

pub fn call<'a>(callee: Value<'a>, args: Vec<TypedVal<'a>>) -> Op<'a> {
    Op::Call { ret_ty: I32, callee, args }
}

pub fn add<'a>(lhs: Value<'a>, rhs: Value<'a>) -> Op<'a> {
    Op::Bin { op: BinOp::Add, ty: I32, lhs, rhs }
}

pub fn ret<'a>(val: Value<'a>) -> Terminator<'a> {
    Terminator::Ret { val: Some(typed(I32, val)) }
}

pub fn jump(block: &str) -> Terminator<'_> {
    Terminator::Br { cond: None, if_true: block.into(), if_false: None }
}

pub fn block<'a>(label: &'a str, insts: Vec<Inst<'a>>, term: Terminator<'a>) -> Block<'a> {
    Block { label: label.into(), insts, term }
}

/// `i32 @name(i32 %a)`
pub fn function<'a>(name: &'a str, blocks: Vec<Block<'a>>) -> Function<'a> {
    let params = vec![Param { name: Some("a".into()), ty: I32 }];
    Function { name: name.into(), ret_ty: I32, params, blocks }
}

/// One block `entry` that returns 0.
pub fn plain<'a>(name: &'a str, insts: Vec<Inst<'a>>) -> Function<'a> {
    function(name, vec![block("entry", insts, ret(Value::Int(0)))])
}

/// A module with these functions defined.
pub fn defining<'a>(names: &[&'a str]) -> Module<'a> {
    Module { defined: names.iter().map(|name| (*name).into()).collect(), ..Module::default() }
}

/// The book of these functions.
pub fn book<'a>(module: &'a Module<'a>, functions: &'a [Function<'a>]) -> Result<Book, Unwritable> {
    let mut writer = BookWriter::new(module);
    functions.iter().try_for_each(|function| writer.function(function))?;
    writer.finish()
}

/// Each name of a book, in order.
pub fn names(book: &Book) -> Vec<&str> {
    std::str::from_utf8(book.names()).expect("names are UTF-8").lines().collect()
}

/// The names that have an entry of this kind.
pub fn of_kind(book: &Book, kind: u64) -> Vec<&str> {
    let names = names(book);
    book.entries().filter(|entry| entry.0 == kind).map(|entry| names[entry.1 as usize]).collect()
}
