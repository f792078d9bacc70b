//! The calls, slices that grow, refusals, and what a refusal is about.
use crate::common::*;
use mivolanjy::ir::*;
use mivolanjy::{blame, raw, Book, Refusal};

#[test]
fn refusals_have_document_01s_numbers() {
    for number in 1..=21 {
        let refusal = Refusal::of_number(number).unwrap();
        assert_eq!(u64::from(refusal.number()), number);
        assert!(refusal.to_string().ends_with(&format!("(refusal {number})")));
    }
    assert_eq!([0, 22, u64::MAX].map(Refusal::of_number), [None; 3]);
}

#[test]
fn whatever_is_no_book_is_refused() {
    let of = |words: &[u64], names: &[u8]| Book::from_slices(words.to_vec(), names.to_vec());
    for (book, refusal) in [
        (of(&[], b""), Refusal::Book),
        (of(&[u64::MAX, u64::MAX], b""), Refusal::Book),
        (of(&[5, 2, 5, 10, 0, 0, 0, 0, 0, 0, 0, 0], b"b\na\n"), Refusal::Names),
    ] {
        assert_eq!(book.check(0), Err(refusal));
        assert_eq!(book.translate(0), Err(refusal));
        assert_eq!(book.entries().count() > 0, refusal == Refusal::Names);
    }
}

#[test]
fn the_counter_goes_on_and_has_a_bound() {
    let module = Module::default();
    let select = Op::Select { cond: Value::Int(1), ty: I32, tval: Value::Int(1), fval: Value::Int(2) };
    let functions = [plain("f", vec![named("x", select)])];
    let book = book(&module, &functions).unwrap();
    let first = book.translate(7).unwrap();
    assert!(first.next > 7);
    assert_eq!(book.translate(1 << 32).unwrap().next, first.next - 7 + (1 << 32));
    assert_eq!(book.translate((1 << 32) + 1), Err(Refusal::Book));
}

/// A switch of many cases to a block with many phis has far more lines than entries.
#[test]
fn slices_grow_until_all_fits() {
    let module = Module::default();
    let phis: Vec<String> = (0..300).map(|number| format!("a_long_name_of_a_phi_{number}")).collect();
    let insts = phis
        .iter()
        .map(|name| named(name, Op::Phi { ty: I32, incoming: vec![(Value::Int(i128::MAX >> 65), "entry".into())] }));
    let cases = (0..300).map(|number| (number, "join".into())).collect();
    let switch = Terminator::Switch { ty: I32, val: local("a"), default: "join".into(), cases };
    let functions =
        [function("f", vec![block("entry", vec![], switch), block("join", insts.collect(), ret(Value::Int(0)))])];
    let book = book(&module, &functions).unwrap();
    let lines = book.translate(0).unwrap();
    assert!(lines.kinds.len() > 300 * 600 && lines.kinds.len() == lines.operands.len());
    assert!(lines.kinds.len() > 10 * book.words().len());
    let text = book.print(&lines).unwrap();
    assert_eq!(text.lines().count(), lines.kinds.len());
}

#[test]
fn raw_calls_say_20_and_leave_what_they_should() {
    let module = Module::default();
    let functions = [plain("f", vec![])];
    let book = book(&module, &functions).unwrap();
    let mut work = vec![0; raw::work_length(3)];
    let (mut kinds, mut operands) = ([9; 4], [9; 4]);
    let reply = raw::translate(book.words(), book.names(), 5, &mut work, &mut kinds, &mut operands);
    assert_eq!((reply.refusal, reply.lines, reply.next), (20, 0, 5));
    assert_eq!((kinds, operands), ([9; 4], [9; 4]));
    work.pop();
    let reply = raw::translate(book.words(), book.names(), 5, &mut work, &mut kinds, &mut operands);
    assert_eq!(reply.refusal, 4);
}

#[test]
fn files_hold_a_whole_book() {
    let module = Module::default();
    let functions = [plain("f", vec![])];
    let book = book(&module, &functions).unwrap();
    let file = book.to_file();
    assert_eq!(Book::from_file(&file), Some(book.clone()));
    let head = 8 * book.words().len();
    for cut in 0..head {
        assert_eq!(Book::from_file(&file[..cut]), None);
    }
    assert_eq!(Book::from_file(&[0xff; 8]), None);
}

/// One function for each refusal from 5 to 19 that one instruction meets, and where it is.
#[test]
fn blame_finds_the_instruction() {
    let struct_of_two = Type::Struct(StructBody { packed: false, fields: vec![I32, I32] });
    let three = Type::Array { packed: false, len: 3, elem: Box::new(Type::Int(8)) };
    let field = |index| Op::GetElementPtr {
        base_ty: struct_of_two.clone(),
        ptr: local("p"),
        indices: vec![typed(I32, Value::Int(0)), typed(I32, index)],
    };
    let sext = Op::Conv { op: ConvOp::SExt, from_ty: Type::Int(64), val: local("p"), to_ty: Type::Int(64) };
    let big = Type::Array { packed: false, len: 1 << 25, elem: Box::new(Type::Int(8)) };
    let cases: Vec<(Inst, Refusal)> = vec![
        (unnamed(add(local("a"), local("a"))), Refusal::NoResultName),
        (named("x", load(Type::Named("gone".into()), local("p"))), Refusal::NoSize),
        (named("x", load(big, local("p"))), Refusal::TooLarge),
        (named("x", Op::Bin { op: BinOp::Add, ty: three.clone(), lhs: local("a"), rhs: local("a") }), Refusal::NotInteger),
        (named("x", add(local("gone"), local("a"))), Refusal::UnknownLocal),
        (named("x", load(three, local("p"))), Refusal::AccessSize),
        (named("x", Op::AtomicLoad { ty: I32, ptr: local("p") }), Refusal::AtomicSize),
        (named("x", sext), Refusal::SignExtension),
        (named("x", field(Value::Int(2))), Refusal::GepStep),
        (named("x", call(global("puts"), vec![])), Refusal::Call),
        (named("x", Op::ExtractValue { agg: local("p"), index: 2 }), Refusal::ExtractValue),
    ];
    for (bad, refusal) in cases {
        let text = format!(
            "block %next, {}",
            if bad.dest.is_some() { format!("%x = {}", mivolanjy::op_word(&bad.op)) } else { "add".into() }
        );
        let insts = vec![
            named("p", Op::Alloca { ty: Type::Int(64), count: None, align: None }),
            named("q", add(local("a"), local("a"))),
        ];
        let next = vec![named("y", add(local("a"), local("a"))), bad, named("z", add(local("a"), local("a")))];
        let function = function("f", vec![block("entry", insts, jump("next")), block("next", next, ret(local("z")))]);
        let found = blame(&Module::default(), &function).unwrap().unwrap();
        let place = found.place.unwrap();
        assert_eq!((found.refusal, place.block, place.inst, place.text), (refusal, 1, 1, text));
    }
}

#[test]
fn blame_says_which_call_and_why() {
    let said = |op| blame(&Module::default(), &plain("f", vec![named("x", op)])).unwrap().unwrap().to_string();
    assert_eq!(said(call(global("puts"), vec![])), "@puts is not defined (refusal 15)");
    let many = call(global("f"), vec![typed(I32, Value::Int(0)); 256]);
    assert_eq!(said(many), "a call has 255 arguments at most, and here are 256 (refusal 15)");
    assert!(said(call(Value::Null, vec![])).starts_with("a call has over 255 arguments, or its function is not defined, or"));
}

#[test]
fn blame_finds_terminators_phis_and_what_is_nobodys() {
    let module = Module::default();
    let place = |function: Function| {
        blame(&module, &function).unwrap().map(|found| (found.refusal, found.place.map(|place| place.text)))
    };
    assert_eq!(place(plain("f", vec![])), None);
    let gone = function("f", vec![block("entry", vec![], jump("gone"))]);
    assert_eq!(place(gone), Some((Refusal::UnknownBlock, Some("block %entry, br".to_string()))));
    let half = Terminator::Br { cond: Some(Value::Int(1)), if_true: "entry".into(), if_false: None };
    let half = function("f", vec![block("entry", vec![], half)]);
    assert_eq!(place(half), Some((Refusal::NoFalseTarget, Some("block %entry, br".to_string()))));
    let phi = named("x", Op::Phi { ty: I32, incoming: vec![(Value::Int(1), "other".into())] });
    let lacks = function("f", vec![block("entry", vec![], jump("next")), block("next", vec![phi], ret(local("x")))]);
    assert_eq!(place(lacks), Some((Refusal::PhiLacksPredecessor, Some("block %next, %x = phi".to_string()))));
    let names: &'static [String] = (0..65_536).map(|number| format!("v{number}")).collect::<Vec<_>>().leak();
    let slots = plain("f", names.iter().map(|name| named(name, Op::Fence)).collect());
    assert_eq!(place(slots), Some((Refusal::TooManySlots, None)));
}
