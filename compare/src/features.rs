//! Corners of accepted books that are easily missed. The statistics count them, so that a lost one shows.
use crate::book::*;
use crate::hash::{Map, Set};
use crate::measure::Measure;
use crate::oracle::sanitize;
use crate::random::leading_phis;

/// Of one of the book's functions.
pub const FEATURES: &[(&str, fn(&Book, &Function) -> bool)] = &[
    ("no block", |_, function| function.blocks.is_empty()),
    ("two blocks of one name", |_, function| twice(function.blocks.iter().map(|block| block.label.as_str()))),
    ("two parameters of one name", |_, function| twice(function.params.iter().filter_map(|param| param.name.as_deref()))),
    ("two results of one name", |_, function| twice(results(function))),
    ("a result named like a parameter", |_, function| {
        let params: Set<&str> = function.params.iter().filter_map(|param| param.name.as_deref()).collect();
        results(function).any(|name| params.contains(name))
    }),
    ("a block named like a local", |_, function| {
        let labels: Set<&str> = function.blocks.iter().map(|block| block.label.as_str()).collect();
        results(function).any(|name| labels.contains(name))
    }),
    ("a global operand named like a local", |_, function| {
        let locals: Set<&str> = results(function).collect();
        operands(function, |name| locals.contains(name))
    }),
    ("parameter without name", |_, function| function.params.iter().any(|param| param.name.is_none())),
    ("leading phi", |_, function| function.blocks.iter().any(|block| leading_phis(&block.insts) > 0)),
    ("late phi", |_, function| late_phis(function).next().is_some()),
    ("late phi without name", |_, function| late_phis(function).any(|inst| inst.dest.is_none())),
    ("phi in the first block", |_, function| function.blocks.first().is_some_and(|block| leading_phis(&block.insts) > 0)),
    ("fixed places of size 0 alone", |book, function| {
        let mut measure = Measure::new(book);
        let mut places = allocas(function).peekable();
        places.peek().is_some()
            && places.all(|(ty, count)| match fixed_count(count) {
                Some(count) => count == 0 || measure.size(ty) == Ok(0),
                None => false,
            })
    }),
    ("negative count of a place of size 0", |_, function| {
        allocas(function).any(|(_, count)| matches!(count, Some(TypedVal { val: Value::Int(number), .. }) if *number < 0))
    }),
    ("varying count", |_, function| allocas(function).any(|(_, count)| fixed_count(count).is_none())),
    ("varying place named like a fixed one", |_, function| {
        let names = |fixed: bool| -> Set<&str> {
            let of_sort = instructions(function).filter(move |inst| match &inst.kind {
                InstKind::Alloca { count, .. } => fixed_count(count.as_ref()).is_some() == fixed,
                _ => false,
            });
            of_sort.filter_map(|inst| inst.dest.as_deref()).collect()
        };
        !names(true).is_disjoint(&names(false))
    }),
    ("count of a type without width", |_, function| allocas(function).any(|(_, count)| count.is_some_and(|count| !is_scalar(&count.ty)))),
    ("varying place of size 0", |book, function| varying_size(book, function, 0)),
    ("varying place of size 1", |book, function| varying_size(book, function, 1)),
    ("getelementptr without index of a type without size", |book, function| {
        let mut measure = Measure::new(book);
        instructions(function).any(|inst| match &inst.kind {
            InstKind::GetElementPtr { base_ty, indices, .. } => indices.is_empty() && measure.size(base_ty).is_err(),
            _ => false,
        })
    }),
    ("varying index, stride 0", |book, function| first_stride(book, function, 0)),
    ("varying index, stride 1", |book, function| first_stride(book, function, 1)),
    ("varying index of pointer type", |_, function| {
        geps(function).flatten().any(|index| !matches!(index.val, Value::Int(_)) && index.ty == Type::Ptr)
    }),
    ("getelementptr without index", |_, function| geps(function).any(<[TypedVal]>::is_empty)),
    ("negative constant index", |_, function| {
        geps(function).flatten().any(|index| matches!(index.val, Value::Int(number) if number < 0))
    }),
    ("constant index of a type without width", |_, function| {
        geps(function).flatten().any(|index| matches!(index.val, Value::Int(_)) && !matches!(index.ty, Type::Int(_) | Type::Ptr))
    }),
    ("varying index of 1, 8 or 16 bits", |_, function| {
        geps(function).flatten().any(|index| !matches!(index.val, Value::Int(_)) && matches!(index.ty, Type::Int(1 | 8 | 16)))
    }),
    ("call of a name with .with.overflow.", |_, function| {
        calls(function).any(|(inst, name, _)| inst.dest.is_some() && name.contains(".with.overflow."))
    }),
    ("call of a name that nearly has .with.overflow.", |_, function| {
        calls(function).any(|(_, name, _)| name.contains("with.overflow") && !name.contains(".with.overflow."))
    }),
    ("call of a name that nearly is a syscall or memcmp", |_, function| {
        calls(function).any(|(_, name, _)| {
            let near = name.starts_with("__uvm") || name.contains("bcmp") || name.contains("memcmp");
            near && !name.starts_with("__uvm_") && name != "bcmp" && name != "memcmp"
        })
    }),
    ("call of a name that nearly starts llvm.", |_, function| calls(function).any(|(_, name, _)| name.starts_with("llvm"))),
    ("call of the function itself, not marked", |book, function| {
        let own = function.name.as_str();
        calls(function).any(|(_, name, _)| name == own) && book.marks.iter().all(|(_, name)| name != own)
    }),
    ("syscall", |_, function| calls(function).any(|(_, name, _)| name.starts_with("__uvm_"))),
    ("void syscall with a name", |_, function| {
        calls(function).any(|(inst, name, _)| {
            let void = matches!(inst.kind, InstKind::Call { ret_ty: Type::Void, .. });
            void && inst.dest.is_some() && name.starts_with("__uvm_")
        })
    }),
    ("syscall with a result of a type without width", |_, function| {
        calls(function).any(|(inst, name, _)| {
            let odd = matches!(&inst.kind, InstKind::Call { ret_ty, .. } if *ret_ty != Type::Void && !is_scalar(ret_ty));
            odd && name.starts_with("__uvm_")
        })
    }),
    ("syscall or memcmp that is marked defined", |book, function| {
        let marked = |name: &str| book.marks.iter().any(|(mark, other)| *mark == Mark::Defined && other == name);
        calls(function).any(|(_, name, _)| (name.starts_with("__uvm_") || name == "bcmp" || name == "memcmp") && marked(name))
    }),
    ("bcmp or memcmp, void", |_, function| {
        calls(function).any(|(inst, name, _)| {
            matches!(inst.kind, InstKind::Call { ret_ty: Type::Void, .. }) && (name == "bcmp" || name == "memcmp")
        })
    }),
    ("bcmp or memcmp", |_, function| calls(function).any(|(_, name, _)| name == "bcmp" || name == "memcmp")),
    ("call of 255 arguments", |_, function| calls(function).any(|(_, _, args)| args == 255)),
    ("syscall or memcmp of 256 arguments", |_, function| calls(function).any(|(_, _, args)| args >= 256)),
    ("call through a local", |_, function| {
        instructions(function).any(|inst| matches!(inst.kind, InstKind::Call { callee: Value::Local(_), .. }))
    }),
    ("digits as a global operand", |_, function| operands(function, |name| name.bytes().all(|byte| byte.is_ascii_digit()))),
    ("llvm. as a global operand", |_, function| operands(function, |name| name.starts_with("llvm."))),
    ("reserved name as an operand", |book, function| operands(function, |name| book.is_reserved(name))),
    ("store, atomic store or fence with a name", |_, function| {
        let idle = |kind: &InstKind| matches!(kind, InstKind::Store { .. } | InstKind::AtomicStore { .. } | InstKind::Fence);
        instructions(function).any(|inst| inst.dest.is_some() && idle(&inst.kind))
    }),
    ("extractvalue of no cmpxchg", |book, function| {
        let pairs: Set<&str> = book
            .instructions()
            .filter(|inst| matches!(inst.kind, InstKind::Cmpxchg { .. }))
            .filter_map(|inst| inst.dest.as_deref())
            .collect();
        instructions(function).any(|inst| match &inst.kind {
            InstKind::ExtractValue { agg: Value::Local(name), .. } => !pairs.contains(name.as_str()),
            _ => false,
        })
    }),
    ("freeze of no bytes, or more than 8", |book, function| {
        let mut measure = Measure::new(book);
        instructions(function).any(|inst| match &inst.kind {
            InstKind::Freeze { ty, .. } => measure.size(ty).is_ok_and(|size| size == 0 || size > 8),
            _ => false,
        })
    }),
    ("load of an array or struct", |_, function| {
        let aggregate = |ty: &Type| !matches!(ty, Type::Int(_) | Type::Ptr);
        instructions(function).any(|inst| matches!(&inst.kind, InstKind::Load { ty, .. } if aggregate(ty)))
    }),
    ("atomic of an array or struct", |_, function| {
        instructions(function).any(|inst| match &inst.kind {
            InstKind::AtomicLoad { ty, .. } | InstKind::AtomicStore { ty, .. } | InstKind::Cmpxchg { ty, .. } => !is_scalar(ty),
            _ => false,
        })
    }),
    ("bitcast to a type without width", |_, function| {
        instructions(function).any(|inst| {
            matches!(&inst.kind, InstKind::Conv { op: ConvOp::BitCast, to_ty, .. } if !is_scalar(to_ty))
        })
    }),
    ("jump with a false target nobody reads", |_, function| {
        terms(function).any(|term| matches!(term, Terminator::Br { cond: None, if_false: Some(_), .. }))
    }),
    ("switch without cases", |_, function| terms(function).any(|term| matches!(term, Terminator::Switch { cases, .. } if cases.is_empty()))),
    ("a name outside ASCII", |book, _| book.names.iter().any(|name| outside(name))),
    ("names in ASCII alone", |book, _| book.names.iter().all(|name| name.is_ascii())),
    ("a name all outside ASCII", |book, _| book.names.iter().any(|name| !name.bytes().any(|byte| byte.is_ascii()))),
    ("characters of two, three and four bytes", |book, _| {
        (2..=4).all(|bytes| book.names.iter().flat_map(|name| name.chars()).any(|c| c.len_utf8() == bytes))
    }),
    ("two names that print alike and differ outside ASCII", |book, _| twice(labels(book).iter().map(String::as_str))),
    ("function named outside ASCII", |_, function| outside(&function.name)),
    ("struct named outside ASCII in the function's comment", |_, function| returned(&function.ret_ty).is_some_and(outside)),
    ("struct named outside ASCII", |book, _| book.structs.iter().any(|(name, _)| outside(name))),
    ("block named outside ASCII", |_, function| function.blocks.iter().any(|block| outside(&block.label))),
    ("parameter named outside ASCII", |_, function| {
        function.params.iter().any(|param| param.name.as_deref().is_some_and(outside))
    }),
    ("result named outside ASCII", |_, function| results(function).any(outside)),
    ("mark of a name outside ASCII", |book, _| book.marks.iter().any(|(_, name)| outside(name))),
    ("global operand outside ASCII", |_, function| operands(function, outside)),
    ("call of a name outside ASCII", |_, function| calls(function).any(|(_, name, _)| outside(name) && !name.starts_with("__uvm_"))),
    ("syscall outside ASCII", |_, function| calls(function).any(|(_, name, _)| outside(name) && name.starts_with("__uvm_"))),
    ("call of a name outside ASCII with .with.overflow.", |_, function| {
        calls(function).any(|(_, name, _)| outside(name) && name.contains(".with.overflow."))
    }),
    ("about 65,535 slots", |_, function| results(function).count() > 65_000),
];

/// Of a book as a whole.
pub const WHOLE: &[(&str, fn(&Book) -> bool)] = &[
    ("one function", |book| book.functions.len() == 1),
    ("two to four functions", |book| (2..=4).contains(&book.functions.len())),
    ("five functions and more", |book| book.functions.len() >= 5),
    ("call of a function that stands before", |book| calls_at(book, |from, to| to < from)),
    ("call of a function that stands behind", |book| calls_at(book, |from, to| to > from)),
    ("two functions that call each other", |book| {
        let pairs: Set<(usize, usize)> = calls_between(book).into_iter().collect();
        pairs.iter().any(|(from, to)| from < to && pairs.contains(&(*to, *from)))
    }),
    ("call of another function of the book that is marked defined", |book| {
        let marked = |place: usize| book.marks.iter().any(|(mark, name)| *mark == Mark::Defined && *name == book.functions[place].name);
        calls_between(book).into_iter().any(|(from, to)| from != to && marked(to))
    }),
    ("function marked reserved", |book| book.functions.iter().any(|function| book.is_reserved(&function.name))),
    ("two functions with a block of one name", |book| shared(book, |f| f.blocks.iter().map(|block| block.label.as_str()).collect())),
    ("two functions with a parameter of one name", |book| {
        shared(book, |f| f.params.iter().filter_map(|param| param.name.as_deref()).collect())
    }),
    ("two functions with a result of one name", |book| shared(book, |f| results(f).collect())),
    ("a function named like another's block", |book| named_like(book, |f| f.blocks.iter().map(|block| block.label.as_str()).collect())),
    ("a function named like another's result", |book| named_like(book, |f| results(f).collect())),
    ("two functions with leading phis", |book| {
        several(book, |f| f.blocks.iter().any(|block| leading_phis(&block.insts) > 0))
    }),
    ("two functions with places", |book| several(book, |f| allocas(f).next().is_some())),
    ("two functions with labels of their own", |book| several(book, has_labels)),
    ("a function without blocks among others", |book| book.functions.len() > 1 && book.functions.iter().any(|f| f.blocks.is_empty())),
    ("two functions that print alike", |book| {
        let printed: Vec<String> = book.functions.iter().map(|function| sanitize(&function.name)).collect();
        twice(printed.iter().map(String::as_str))
    }),
];

/// The places of caller and callee, for each call of a function of the book.
fn calls_between(book: &Book) -> Vec<(usize, usize)> {
    let places: Map<&str, usize> = book.functions.iter().enumerate().map(|(place, function)| (function.name.as_str(), place)).collect();
    let from = |(place, function)| calls(function).filter_map(move |(_, name, _)| Some((place, name)));
    book.functions.iter().enumerate().flat_map(from).filter_map(|(from, name)| Some((from, *places.get(name)?))).collect()
}

fn calls_at(book: &Book, such: fn(usize, usize) -> bool) -> bool {
    calls_between(book).into_iter().any(|(from, to)| such(from, to))
}

/// Whether two functions have such a name in common.
fn shared<'a>(book: &'a Book, names: fn(&'a Function) -> Set<&'a str>) -> bool {
    let mut seen: Set<&str> = Set::default();
    book.functions.iter().any(|function| {
        let own = names(function);
        let meets = !own.is_disjoint(&seen);
        seen.extend(own);
        meets
    })
}

/// Whether a function's own name is such a name of another one.
fn named_like<'a>(book: &'a Book, names: fn(&'a Function) -> Set<&'a str>) -> bool {
    let own: Set<&str> = book.functions.iter().map(|function| function.name.as_str()).collect();
    book.functions.iter().any(|function| names(function).into_iter().any(|name| name != function.name && own.contains(name)))
}

fn several(book: &Book, such: fn(&Function) -> bool) -> bool {
    book.functions.iter().filter(|function| such(function)).count() > 1
}

/// Whether the counter moves on.
fn has_labels(function: &Function) -> bool {
    let select = instructions(function).any(|inst| matches!(inst.kind, InstKind::Select { .. }));
    select || terms(function).any(|term| match term {
        Terminator::Br { cond, .. } => cond.is_some(),
        Terminator::Switch { cases, .. } => !cases.is_empty(),
        _ => false,
    })
}

fn is_scalar(ty: &Type) -> bool {
    matches!(ty, Type::Int(_) | Type::Ptr)
}

/// Whether a varying place has elements of this size.
fn varying_size(book: &Book, function: &Function, size: u64) -> bool {
    let mut measure = Measure::new(book);
    allocas(function).any(|(ty, count)| fixed_count(count).is_none() && measure.size(ty) == Ok(size))
}

/// Whether the first index of a getelementptr varies over elements of this size.
fn first_stride(book: &Book, function: &Function, size: u64) -> bool {
    let mut measure = Measure::new(book);
    instructions(function).any(|inst| match &inst.kind {
        InstKind::GetElementPtr { base_ty, indices, .. } => {
            let varies = indices.first().is_some_and(|index| !matches!(index.val, Value::Int(_)));
            varies && measure.size(base_ty) == Ok(size)
        }
        _ => false,
    })
}

fn outside(name: &str) -> bool {
    !name.is_ascii()
}

/// The names outside ASCII as labels have them.
fn labels(book: &Book) -> Vec<String> {
    book.names.iter().filter(|name| outside(name)).map(|name| sanitize(name)).collect()
}

/// The named struct that a type's text has.
fn returned(ty: &Type) -> Option<&str> {
    match ty {
        Type::NamedStruct(name) => Some(name),
        Type::Array { elem, .. } => returned(elem),
        _ => None,
    }
}

fn twice<'a>(mut names: impl Iterator<Item = &'a str>) -> bool {
    let mut seen = Set::default();
    !names.all(|name| seen.insert(name))
}

fn results(function: &Function) -> impl Iterator<Item = &str> {
    instructions(function).filter_map(|inst| inst.dest.as_deref())
}

fn terms(function: &Function) -> impl Iterator<Item = &Terminator> {
    function.blocks.iter().map(|block| &block.term)
}

fn late_phis(function: &Function) -> impl Iterator<Item = &Inst> {
    let behind = |block: &'_ BasicBlock| leading_phis(&block.insts);
    let blocks = function.blocks.iter();
    blocks.flat_map(move |block| &block.insts[behind(block)..]).filter(|inst| matches!(inst.kind, InstKind::Phi { .. }))
}

fn allocas(function: &Function) -> impl Iterator<Item = (&Type, Option<&TypedVal>)> {
    instructions(function).filter_map(|inst| match &inst.kind {
        InstKind::Alloca { ty, count, .. } => Some((ty, count.as_ref())),
        _ => None,
    })
}

fn fixed_count(count: Option<&TypedVal>) -> Option<i128> {
    match count {
        None => Some(1),
        Some(TypedVal { val: Value::Int(number), .. }) => Some(*number),
        Some(_) => None,
    }
}

fn geps(function: &Function) -> impl Iterator<Item = &[TypedVal]> {
    instructions(function).filter_map(|inst| match &inst.kind {
        InstKind::GetElementPtr { indices, .. } => Some(indices.as_slice()),
        _ => None,
    })
}

/// The calls of globals: instruction, name, argument count.
fn calls(function: &Function) -> impl Iterator<Item = (&Inst, &str, usize)> {
    instructions(function).filter_map(|inst| match &inst.kind {
        InstKind::Call { callee: Value::Global(name), args, .. } => Some((inst, name.as_str(), args.len())),
        _ => None,
    })
}

/// Whether a global of such a name is an operand of a store, binary operation or phi.
fn operands(function: &Function, such: impl Fn(&str) -> bool) -> bool {
    let is = |value: &Value| matches!(value, Value::Global(name) if such(name));
    instructions(function).any(|inst| match &inst.kind {
        InstKind::Store { val, ptr, .. } => is(val) || is(ptr),
        InstKind::Bin { lhs, rhs, .. } | InstKind::ICmp { lhs, rhs, .. } => is(lhs) || is(rhs),
        InstKind::Load { ptr, .. } | InstKind::GetElementPtr { ptr, .. } => is(ptr),
        InstKind::Phi { incoming, .. } => incoming.iter().any(|(value, _)| is(value)),
        _ => false,
    })
}
