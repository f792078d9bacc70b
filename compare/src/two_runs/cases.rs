//! Tests of the two runs: small functions with what they give by hand, each stop, and lines that must be found wrong.
use super::agree::{hold, Held, Seen};
use super::make::{make, Made};
use super::program::Program;
use super::source::{values, Halt, Stop};
use super::world::{Input, Memory, Reply, Target};
use super::{counts::Counts, inputs, shrink::{shrink, Whole}, BOUND};
use crate::book::*;
use functions::{act, call, gives, load, local, returning, set, stopping, swapping, typed, Case, Ends};
use std::collections::BTreeSet;

mod functions;

pub fn tests() -> Vec<(String, Result<(), String>)> {
    let mut results = vec![
        ("values".to_string(), operations()),
        ("a call and its memory".to_string(), calling()),
        ("lines that are wrong".to_string(), wrong_lines()),
        ("random functions".to_string(), random_functions()),
        ("a smaller function".to_string(), smaller_function()),
        ("two functions with blocks of one name".to_string(), two_functions()),
    ];
    for case in returning().into_iter().chain(stopping()) {
        results.push((case.name.to_string(), ends_so(case)));
    }
    results
}

/// Stack pointer 65536, memory 7 at 4096 and 1 elsewhere; the reply at position n is n + 40, with n + 50 at 4096.
fn input(program: &Program, args: &[u64]) -> Input {
    let mut memory = Memory::new(1);
    memory.set(4096, 7);
    let replies = (0..4).map(|place| {
        let mut memory = Memory::new(0);
        memory.set(4096, 50 + place);
        Reply { cell: 40 + place as u64, memory }
    });
    let globals = program.book.names.iter().enumerate().map(|(place, name)| (name.clone(), 8192 + place as u64)).collect();
    Input { args: args.to_vec(), memory, sp: 65_536, globals, shapes: program.shapes.clone(), replies: replies.collect() }
}

fn run(made: Made, args: &[u64]) -> Result<Held, String> {
    let program = Program::new(made, 0)?.ok_or("refused")?;
    hold(&program, &input(&program, args), BOUND)
}

fn ends_so(case: Case) -> Result<(), String> {
    let held = run(case.made, &case.args)?;
    let found = match (held.seen.last(), held.end) {
        (Some(Seen::Gave { value, .. }), _) => Some(Ok(*value)),
        (_, Err(Halt::Stop(stop))) => Some(Err(stop)),
        _ => None,
    };
    if found == Some(case.ends) { Ok(()) } else { Err(format!("ends with {found:?}")) }
}

// ---- the rest

fn operations() -> Result<(), String> {
    let expected: [(BinOp, u32, u64, u64, Ends); 14] = [
        (BinOp::Sub, 8, 3, 5, Ok(254)),
        (BinOp::Mul, 64, u64::MAX, u64::MAX, Ok(1)),
        (BinOp::SDiv, 8, 156, 7, Ok(242)),
        (BinOp::SDiv, 8, 128, 255, Err(Stop::Undefined)),
        (BinOp::SDiv, 1, 1, 1, Err(Stop::Undefined)),
        (BinOp::SRem, 8, 156, 7, Ok(254)),
        (BinOp::SRem, 16, 0x8000, 0xffff, Err(Stop::Undefined)),
        (BinOp::UDiv, 8, 156, 0, Err(Stop::Undefined)),
        (BinOp::URem, 64, u64::MAX, 10, Ok(5)),
        (BinOp::Shl, 16, 0x8001, 1, Ok(2)),
        (BinOp::Shl, 16, 1, 16, Err(Stop::Undefined)),
        (BinOp::LShr, 8, 128, 7, Ok(1)),
        (BinOp::AShr, 8, 128, 7, Ok(255)),
        (BinOp::AShr, 1, 1, 0, Ok(1)),
    ];
    for (op, width, x, y, ends) in expected {
        let found = values::bin(op, width, x, y);
        if found != ends {
            return Err(format!("{op:?} i{width} {x}, {y} gives {found:?}"));
        }
    }
    let extended = values::conv(ConvOp::SExt, 1, 64, 1) == Ok(u64::MAX) && values::conv(ConvOp::SExt, 8, 16, 128) == Ok(0xff80);
    let same = values::conv(ConvOp::ZExt, 8, 8, 1) == Err(Stop::IllFormed);
    if extended && same { Ok(()) } else { Err("conversions".to_string()) }
}

/// A syscall without a reply takes the memory of its position; memcmp's reply is that of the next.
fn calling() -> Result<(), String> {
    let pointer = || typed(Type::Ptr, local("p"));
    let insts = vec![
        act(call(Type::Void, "__uvm_put", vec![typed(Type::Int(8), Value::Int(-1))])),
        set("x", load(Type::Int(8), "p")),
        set("r", call(Type::Int(32), "memcmp", vec![pointer(), pointer(), typed(Type::Int(64), Value::Int(3))])),
    ];
    let held = run(gives(Type::Int(32), &[("p", Type::Ptr)], insts), &[4096])?;
    let Some(Seen::Gave { value: 41, memory, calls }) = held.seen.last() else { return Err("another value".to_string()) };
    let listed: Vec<&Target> = calls.iter().map(|call| &call.target).collect();
    let expected = [Target::Syscall("put".to_string()), Target::Syscall("memcmp".to_string())];
    if memory.byte(4096) == 51 && calls[0].args == [255] && listed == expected.iter().collect::<Vec<_>>() {
        Ok(())
    } else {
        Err(format!("{calls:?}"))
    }
}

/// A line changed is a difference.
fn wrong_lines() -> Result<(), String> {
    for (from, to) in [("add_u32;", "sub_u32;"), ("set_local 0;", "set_local 1;"), ("jz ", "jnz "), ("trunc_u8;", "dup;")] {
        let mut program = Program::new(swapping(2), 0)?.ok_or("refused")?;
        let place = program.lines.iter().position(|line| line.starts_with(from)).ok_or(from)?;
        program.lines[place] = program.lines[place].replace(from, to);
        program.read_lines()?;
        if hold(&program, &input(&program, &[9, 2]), BOUND).is_ok() {
            return Err(format!("{from} became {to}"));
        }
    }
    Ok(())
}

/// Accepted, under the naming conditions, and far enough.
fn random_functions() -> Result<(), String> {
    let mut counts = Counts::default();
    let mut shared = 0;
    for index in 0..1500 {
        let mut program = Program::new(make(5, index), 0)?.ok_or(format!("book {index} is refused"))?;
        let mut seen = BTreeSet::new();
        for place in 0..program.book.functions.len() {
            program.enter(place)?;
            let names: Vec<&str> = program.names().collect();
            if names.iter().collect::<BTreeSet<_>>().len() < names.len() {
                return Err(format!("book {index}: function {place} has a name twice"));
            }
            shared += names.iter().any(|name| seen.contains(*name)) as u64;
            seen.extend(names.iter().map(|name| name.to_string()));
            if program.book.instructions().any(compares_itself) {
                return Err(format!("book {index} compares with its own result"));
            }
            counts.functions += 1;
            counts.add(&hold(&program, &inputs::input(&program, 5, index, 0, BOUND), BOUND)?);
        }
    }
    if shared < 100 {
        return Err("functions share no names".to_string());
    }
    if counts.lacks_a_kind() || !counts.goes_far() { Err("they don't go far".to_string()) } else { Ok(()) }
}

/// Two functions whose blocks, parameters and results have the same names: each runs its own lines, wherever they stand.
fn two_functions() -> Result<(), String> {
    let (mut both, other) = (swapping(2), swapping(1));
    both.book.functions.extend(other.book.functions);
    both.book.functions[1].name = "go".to_string();
    let mut program = Program::new(both, 0)?.ok_or("refused")?;
    for (place, owed) in [(0, 249), (1, 7)] {
        program.enter(place)?;
        let held = hold(&program, &input(&program, &[9, 2]), BOUND)?;
        match held.seen.last() {
            Some(Seen::Gave { value, .. }) if *value == owed => {}
            _ => return Err(format!("function {place} does not give {owed}")),
        }
    }
    // A jump of the second into the first is found wrong.
    let line = program.lines.iter().position(|line| line.starts_with("jmp go__b")).ok_or("no jump")?;
    program.lines[line] = program.lines[line].replace("go__", "f__");
    program.read_lines()?;
    if hold(&program, &input(&program, &[9, 2]), BOUND).is_ok() { Err("a jump into another function".to_string()) } else { Ok(()) }
}

fn compares_itself(inst: &Inst) -> bool {
    matches!((&inst.kind, &inst.dest), (InstKind::Cmpxchg { cmp: Value::Local(name), .. }, Some(own)) if name == own)
}

/// Of the first function that loads, a load is left and what may go has gone.
fn smaller_function() -> Result<(), String> {
    let loads = |program: &Program| program.lines.iter().any(|line| line.starts_with("load_"));
    for index in 0..100 {
        let program = Program::new(make(5, index), 0)?.ok_or("refused")?;
        if loads(&program) {
            let mut differ = |programs: &[Program]| programs.iter().map(loads).collect();
            let whole = Whole { seed: 5, index, place: 0, counter: 0 };
            let smallest = shrink(whole, &mut differ).ok_or("nothing")?;
            let (many, few) = (program.book.instructions().count(), smallest.book.instructions().count());
            let small = few < many && smallest.book.functions.len() == 1;
            return if loads(&smallest) && small { Ok(()) } else { Err(format!("{many} instructions became {few}")) };
        }
    }
    Err("no function loads".to_string())
}
