//! The two runs by the definitions: an equation for each run, computed in a scratch repository. What both definitions show
//! at each block must be what the Rust runs showed: on the lines of the whole book, and on the function's own. How the
//! definitions are asked stands in one place of show.txt.
use super::agree::{cells, Held, Seen};
use super::program::Program;
use super::source::Stop;
use super::world::{Call, Input, Memory, Shape, Target};
use super::Run;
use std::fmt::Write as _;

/// What the definitions are asked, over the crates' own.
pub const SHOW: &str = include_str!("show.txt");

pub const HEAD: &str = "use Rattle.std.specs.Prelude.{ℕ, Bool, true, false, ◌≡◌, refl, List, [], ◌∷◌}
use Rattle.machine.specs.State.{Target, Call, Shape}
use Rattle.equations.specs.Show.{Bytes, Input, Seen, Shown, called, show, agreed, open_show}
";

/// Addresses at which the memories are compared.
const MOST_LOOKED: usize = 12;

/// One run with what was seen of it.
pub struct Case {
    pub run: Run,
    /// Words of the book.
    pub words: usize,
    pub equation: String,
}

pub fn case(run: Run, program: &Program, input: &Input, held: &Held) -> Case {
    let looked = looked(input, held);
    let slices = &program.lent.slices;
    let mut equation = format!(
        "show ({})\n    ({})\n    {} {} {}\n    (",
        list(&slices.book, ToString::to_string),
        list(&slices.names, ToString::to_string),
        program.lent.counter,
        program.lent.work,
        program.lines.len()
    );
    given(&mut equation, program, input, held, &looked);
    let seen = list(&held.seen, |seen| format!("\n    {}", shown(program, input, &looked, seen)));
    let _ = write!(equation, ")\n    ≡ agreed ({seen})");
    Case { run, words: slices.book.len(), equation }
}

fn list<T>(items: &[T], item: impl Fn(&T) -> String) -> String {
    items.iter().map(|one| item(one) + " ∷ ").collect::<String>() + "[]"
}

fn numbers(items: &[u64]) -> String {
    list(items, ToString::to_string)
}

fn bytes(text: &str) -> String {
    list(text.as_bytes(), ToString::to_string)
}

/// The addresses touched, or some of them where they are many, and one that may not be.
fn looked(input: &Input, held: &Held) -> Vec<u64> {
    let mut addresses: Vec<u64> = held.touched.iter().copied().collect();
    let step = addresses.len().div_ceil(MOST_LOOKED - 1).max(1);
    addresses = addresses.into_iter().step_by(step).collect();
    addresses.extend(input.memory.stored().next().map(|(address, _)| address));
    addresses
}

fn given(equation: &mut String, program: &Program, input: &Input, held: &Held, looked: &[u64]) {
    let globals: Vec<u64> = program.book.names.iter().map(|name| input.globals[name]).collect();
    let shapes: Vec<(&String, &Shape)> = input.shapes.iter().collect();
    let shapes = list(&shapes, |(name, shape)| {
        format!("({}, record {{ args = {}; replies = {} }})", bytes(name), shape.args, shape.replies)
    });
    // No more replies than the run may ask for.
    let replies = &input.replies[..input.replies.len().min(held.calls)];
    let replies = list(replies, |reply| format!("({}, {})", reply.cell, stored(&reply.memory)));
    let mut counts = held.steps.clone();
    if held.seen.len() > counts.len() {
        counts.push(0);
    }
    let _ = write!(
        equation,
        "record {{ place = {}; position = {}; length = {}; args = {}; memory = {}; sp = {};\n    globals = {}; shapes = {shapes};
    replies = {replies};\n    looked = {}; counts = {} }}",
        program.place,
        program.begins,
        program.own_code.length(),
        numbers(&input.args),
        stored(&input.memory),
        input.sp,
        numbers(&globals),
        numbers(looked),
        numbers(&counts)
    );
}

fn stored(memory: &Memory) -> String {
    let pairs: Vec<(u64, u8)> = memory.stored().collect();
    format!("record {{ rest = {}; stored = {} }}", memory.rest(), list(&pairs, |(address, byte)| format!("({address}, {byte})")))
}

fn shown(program: &Program, input: &Input, looked: &[u64], seen: &Seen) -> String {
    let bytes_of = |memory: &Memory| list(looked, |address| memory.byte(*address).to_string());
    match seen {
        Seen::At { block, values, memory, sp, calls } => {
            let values = list(values, |value| {
                let cells: Vec<u64> = value.iter().flat_map(cells).flatten().collect();
                format!("({})", numbers(&cells))
            });
            let block = program.number(block);
            format!("Seen.at {block} ({values}) ({}) {sp} ({})", bytes_of(memory), called(program, calls))
        }
        Seen::Gave { value, memory, calls } => {
            format!("Seen.gave {value} ({}) {} ({})", bytes_of(memory), input.sp, called(program, calls))
        }
        Seen::Stopped(stop) => format!("Seen.stopped {}", stop_number(*stop)),
    }
}

/// The latest call comes first.
fn called(program: &Program, calls: &[Call]) -> String {
    let latest: Vec<&Call> = calls.iter().rev().collect();
    list(&latest, |call| {
        let target = match &call.target {
            Target::Function(name) => format!("Target.function {}", program.number(name)),
            Target::Syscall(printed) => format!("Target.syscall ({})", bytes(printed)),
            Target::Address(address) => format!("Target.address {address}"),
        };
        format!("called ({target}) ({})", numbers(&call.args))
    })
}

/// The numbers of crates/manual, in the order of document 01's sentence.
fn stop_number(stop: Stop) -> u64 {
    101 + stop as u64
}
