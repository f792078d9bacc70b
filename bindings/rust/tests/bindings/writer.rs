//! What a writer puts into a book, and what it turns down, in what words.
use crate::common::*;
use mivolanjy::ir::*;
use mivolanjy::{kind, BookWriter, Entries, Mark, MOST_ENTRIES, MOST_NAMES};

#[test]
fn add1_is_document_01s_book() {
    let module = Module::default();
    let functions =
        [function("add1", vec![block("entry", vec![named("r", add(local("a"), Value::Int(1)))], ret(local("r")))])];
    let book = book(&module, &functions).unwrap();
    let entries = [
        (5, 1),
        (11, 32),
        (6, 1),
        (11, 32),
        (0, 0),
        (7, 2),
        (40, 4),
        (11, 32),
        (30, 0),
        (32, 1),
        (90, 0),
        (11, 32),
        (30, 3),
        (0, 0),
        (0, 0),
    ];
    assert_eq!(book.entries().collect::<Vec<_>>(), entries);
    assert_eq!(book.names(), b"a\nadd1\nentry\nr\n");
    assert_eq!(book.words()[..2], [15, 4]);
    let lines = book.translate(0).unwrap();
    assert_eq!(
        book.print(&lines).unwrap(),
        "# i32 @add1(1 params)\nadd1:\npush_0n 1;\nadd1__entry:\n\
         get_arg 0;\npush 1;\nadd_u32;\nset_local 0;\nget_local 0;\nret;\n\n"
    );
}

/// A body of fields.
fn body(fields: Vec<Type<'static>>) -> Option<StructBody<'static>> {
    Some(StructBody { packed: false, fields })
}

#[test]
fn structs_come_along_once_with_those_that_they_name() {
    let mut module = Module::default();
    let row = |fields| body(fields);
    module.structs.insert("outer".into(), row(vec![Type::Named("inner".into()), Type::Named("outer2".into())]));
    module.structs.insert("inner".into(), row(vec![I32]));
    module.structs.insert("outer2".into(), row(vec![Type::Named("inner".into())]));
    module.structs.insert("unused".into(), row(vec![Type::Other("float".into())]));
    let place =
        |name| plain(name, vec![named("p", Op::Alloca { ty: Type::Named("outer".into()), count: None, align: None })]);
    let functions = [place("f"), place("g")];
    let book = book(&module, &functions).unwrap();
    assert_eq!(of_kind(&book, kind::NAMED_STRUCT), ["outer", "inner", "outer2"]);
    assert!(book.translate(0).is_ok());
}

#[test]
fn marks_are_document_01s() {
    let module = defining(&["f", "g", "elsewhere", "not_called"]);
    let call_of = |name: &'static str| named("r", call(global(name), vec![]));
    let store = unnamed(Op::Store { ty: Type::Ptr, val: global("sinf"), ptr: Value::Null, align: None });
    let functions = [plain("f", vec![call_of("g"), call_of("elsewhere"), call_of("f"), store]), plain("g", vec![])];
    let book = book(&module, &functions).unwrap();
    assert_eq!(of_kind(&book, kind::DEFINED), ["elsewhere"]);
    assert_eq!(of_kind(&book, kind::RESERVED), ["sinf"]);
    assert!(book.translate(0).is_ok());
}

#[test]
fn calls_that_do_nothing_are_left_out() {
    let module = Module::default();
    let hint = |name: &'static str| unnamed(Op::Call { ret_ty: Type::Void, callee: global(name), args: vec![] });
    let hints = ["llvm.lifetime.start.p0", "llvm.assume", "llvm.dbg.value", "llvm.experimental.noalias.scope.decl"];
    let with = [plain("f", hints.map(hint).to_vec())];
    let without = [plain("f", vec![])];
    assert_eq!(book(&module, &with).unwrap(), book(&module, &without).unwrap());
}

#[test]
fn what_is_turned_down_leaves_nothing_behind() {
    let mut module = defining(&["helper"]);
    module.structs.insert("s".into(), body(vec![Type::Ptr]));
    let bad = plain(
        "bad",
        vec![
            named("p", Op::Alloca { ty: Type::Named("s".into()), count: None, align: None }),
            named("r", call(global("helper"), vec![])),
            named("x", Op::Other("fadd".into())),
        ],
    );
    let good = [plain("good", vec![named("r", call(global("helper"), vec![]))])];
    let mut writer = BookWriter::new(&module);
    assert!(writer.function(&bad).is_err());
    writer.function(&good[0]).unwrap();
    assert!(writer.function(&good[0]).is_err());
    assert!(writer.function(&bad).is_err());
    assert_eq!(writer.finish().unwrap(), book(&module, &good).unwrap());
}

/// Names come and go in any order, and a book has those of the functions that it took.
#[test]
fn names_of_what_is_turned_down_go() {
    let module = Module::default();
    let names: Vec<String> = (0..3000).map(|number| format!("v{}", number * 7919 % 3000)).collect();
    let insts = |from: usize, to: usize| names[from..to].iter().map(|name| named(name, Op::Fence)).collect::<Vec<_>>();
    let labels: Vec<String> = (0..60).map(|number| format!("f{number}")).collect();
    let all: Vec<Function> = (0..60)
        .map(|number| {
            let mut insts = insts(number * 31, number * 31 + 20 + number * 17);
            // Every third can't stand, at its end.
            insts.extend((number % 3 == 2).then(|| named("x", Op::Other("fadd".into()))));
            plain(&labels[number], insts)
        })
        .collect();
    let mut writer = BookWriter::new(&module);
    all.iter().enumerate().for_each(|(number, function)| assert_eq!(writer.function(function).is_ok(), number % 3 != 2));
    let kept: Vec<Function> =
        all.iter().enumerate().filter(|(number, _)| number % 3 != 2).map(|(_, kept)| kept.clone()).collect();
    let written = writer.finish().unwrap();
    assert_eq!(written, book(&module, &kept).unwrap());
    assert_eq!(written.check(0), Ok(()));
}

/// The sentence about a function with these instructions.
fn sentence(insts: Vec<Inst>) -> String {
    let module = Module::default();
    let functions = [plain("f", insts)];
    book(&module, &functions).unwrap_err().to_string()
}

#[test]
fn sentences_name_function_instruction_and_reason() {
    let gep = |indices: Vec<Value<'static>>| Op::GetElementPtr {
        base_ty: I32,
        ptr: local("a"),
        indices: indices.into_iter().map(|index| typed(Type::Int(64), index)).collect(),
    };
    let aligned = |align| Op::Load { ty: I32, ptr: local("a"), align: Some(align) };
    let deep = (0..64).fold(I32, |elem, _| Type::Array { packed: false, len: 1, elem: Box::new(elem) });
    let cases: Vec<(Op<'static>, &str)> = vec![
        (load(Type::Int(24), local("a")), "%x = load: a book has integers of 1, 8, 16, 32 and 64 bits, and no i24"),
        (load(Type::Other("float".into()), local("a")), "%x = load: a book has no type float"),
        (load(deep, local("a")), "%x = load: a type of more than 64 levels"),
        (add(Value::Int(1 << 64), Value::Int(0)), "%x = add: the integer 18446744073709551616 has more than 64 bits"),
        (add(Value::Int(-(1 << 63) - 1), Value::Int(0)), "%x = add: the integer -9223372036854775809 has more than 64 bits"),
        (
            add(Value::Other("a constant expression".into()), Value::Int(0)),
            "%x = add: a book has no such operand: a constant expression",
        ),
        (add(local(""), Value::Int(0)), "%x = add: an empty name"),
        (add(local("a\tb"), Value::Int(0)), "%x = add: the name \"a\\tb\" has a control character"),
        (gep(vec![Value::Int(1 << 31)]), "%x = getelementptr: the index 2147483648 is outside -2^31 to 2^31 - 1"),
        (gep(vec![Value::Int(0); 33]), "%x = getelementptr: a getelementptr has 32 indices at most, and here are 33"),
        (aligned(3), "%x = load: align 3 is no power of two up to 4096"),
        (aligned(0), "%x = load: align 0 is no power of two up to 4096"),
        (aligned(8192), "%x = load: align 8192 is no power of two up to 4096"),
        (call(global("llvm.trap"), vec![]), "%x = call: a book has no call of an intrinsic, and @llvm.trap is one"),
        (call(global("llvm.assume"), vec![]), "%x = call: a book has no call of an intrinsic, and @llvm.assume is one"),
        (call(global("sqrtf"), vec![]), "%x = call: a book has no call of a floating-point function, and @sqrtf is one"),
        (Op::Other("atomicrmw".into()), "%x = atomicrmw: a book has no instruction atomicrmw"),
    ];
    for (op, reason) in cases {
        assert_eq!(sentence(vec![unnamed(Op::Fence), named("x", op)]), format!("function @f, block %entry, {reason}"));
    }
}

#[test]
fn sentences_about_the_rest_of_a_function() {
    let turned_down = |function: Function| book(&Module::default(), &[function]).unwrap_err().to_string();
    let mut returns = plain("f", vec![]);
    returns.ret_ty = Type::Other("double".into());
    assert_eq!(turned_down(returns), "function @f: its return type: a book has no type double");
    let mut takes = plain("f", vec![]);
    takes.params.push(Param { name: None, ty: Type::Int(7) });
    assert_eq!(turned_down(takes), "function @f: parameter 2: a book has integers of 1, 8, 16, 32 and 64 bits, and no i7");
    let throws = function("f", vec![block("entry", vec![], Terminator::Other("invoke".into()))]);
    assert_eq!(turned_down(throws), "function @f, block %entry, invoke: a book has no terminator invoke");
    assert_eq!(book(&Module::default(), &[]).unwrap_err().to_string(), "a book has one function at least");
    let twice = [plain("f", vec![]), plain("f", vec![])];
    let again = book(&Module::default(), &twice).unwrap_err();
    assert_eq!(again.to_string(), "function @f: a function of this name is in the book already");
    let mut module = Module::default();
    module.structs.insert("s".into(), body(vec![Type::Other("float".into())]));
    let mut takes = plain("f", vec![]);
    takes.params[0].ty = Type::Named("s".into());
    assert_eq!(book(&module, &[takes]).unwrap_err().to_string(), "function @f: struct %s: a book has no type float");
    let uses = [plain("f", vec![named("x", load(Type::Named("s".into()), local("a")))])];
    assert_eq!(
        book(&module, &uses).unwrap_err().to_string(),
        "function @f, block %entry, %x = load: struct %s: a book has no type float"
    );
}

#[test]
fn limits_themselves_pass() {
    let deep = (0..63).fold(I32, |elem, _| Type::Array { packed: false, len: 1, elem: Box::new(elem) });
    let indices = vec![typed(Type::Int(64), Value::Int(-(1 << 31))); 32];
    let insts = vec![
        named("x", Op::Alloca { ty: deep, count: None, align: Some(4096) }),
        named("y", Op::GetElementPtr { base_ty: I32, ptr: local("x"), indices }),
        named("z", add(Value::Int(u64::MAX.into()), Value::Int(i64::MIN.into()))),
    ];
    let module = Module::default();
    let functions = [plain("f", insts)];
    assert_eq!(book(&module, &functions).unwrap().check(0), Ok(()));
}

#[test]
fn a_full_book_says_so_and_takes_what_fits() {
    let module = Module::default();
    let names: Vec<String> = (0..MOST_NAMES).map(|number| format!("v{number}")).collect();
    let insts = |names: &'static [String]| names.iter().map(|name| named(name, Op::Fence)).collect();
    let names: &'static [String] = names.leak();
    // `f`, `a` and `entry` are names too.
    let (fits, over) = ([plain("f", insts(&names[3..]))], [plain("f", insts(&names[2..]))]);
    let full = book(&module, &over).unwrap_err();
    assert!(full.full);
    assert_eq!(full.to_string(), "function @f: the book would have 131073 names, and it may have 131072");
    assert_eq!(book(&module, &fits).unwrap().check(0), Ok(()));
    let of_entries = |count: usize| [plain("f", vec![unnamed(Op::Fence); count])];
    let around = 11;
    assert_eq!(book(&module, &of_entries(MOST_ENTRIES - around)).unwrap().check(0), Ok(()));
    assert!(book(&module, &of_entries(MOST_ENTRIES - around + 1)).unwrap_err().full);
}

#[test]
fn entries_are_as_their_maker_pleases() {
    let function = plain("f", vec![named("x", call(global("llvm.trap"), vec![typed(I32, Value::Other("any".into()))]))]);
    let mut entries = Entries::new();
    entries.name("unused").unwrap();
    entries.mark(Mark::Defined, "g").unwrap();
    assert_eq!(entries.mark(Mark::Reserved, "g").unwrap_err().to_string(), "@g has a mark already");
    entries.named_struct("s", None).unwrap();
    assert_eq!(entries.named_struct("s", None).unwrap_err().to_string(), "the struct %s is in the book already");
    entries.function(&function).unwrap();
    let book = entries.finish().unwrap();
    assert_eq!(names(&book), ["a", "entry", "f", "g", "llvm.trap", "s", "unused", "x"]);
    assert_eq!(book.check(0), Err(mivolanjy::Refusal::Forbidden));
}
