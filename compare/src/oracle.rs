//! What the published Rust gives for a book.
use crate::book::*;
use std::any::Any;
use std::cell::Cell;
use std::panic::{self, AssertUnwindSafe};
use uvclang::ast::Module;
use uvclang::codegen::access;

pub use access::{is_reserved, sanitize};

pub enum Answer {
    Accepted(Accepted),
    /// 5, 6 or 8 to 19.
    Refused(u8),
    /// An error or panic that document 01 has no number for. Never expected.
    Strange(String),
}

pub struct Accepted {
    pub lines: Vec<String>,
    pub next: u64,
}

impl Accepted {
    /// Every line ends with byte 10, the final empty one too.
    pub fn text(&self) -> String {
        let mut text = String::with_capacity(self.lines.iter().map(|line| line.len() + 1).sum());
        for line in &self.lines {
            text.push_str(line);
            text.push('\n');
        }
        text
    }
}

/// Whether the book calls an intrinsic or a name that should be marked as reserved. The Rust has lowerings for those that no
/// book has, so it must not be asked.
pub fn calls_others(book: &Book) -> bool {
    book.instructions().any(|inst| match &inst.kind {
        InstKind::Call { callee: Value::Global(name), .. } => name.starts_with("llvm.") || is_reserved(name),
        _ => false,
    })
}

/// Runs `gen_function` for each function, in order. The first fault must be no 7: the Rust would go down into a struct that holds itself for ever.
pub fn answer(book: &Book, counter: u64) -> Answer {
    answer_before(book, book.functions.len(), counter)
}

/// The same for the functions before this one alone; all of the book's count as defined.
pub fn answer_before(book: &Book, place: usize, counter: u64) -> Answer {
    let module = module(book);
    match run(|| access::gen_functions(&module, &book.functions[..place], counter as usize)) {
        Ok((lines, next)) => Answer::Accepted(Accepted { lines, next: next as u64 }),
        Err(Fault { refusal: Some(number), .. }) => Answer::Refused(number),
        Err(fault) => Answer::Strange(fault.message),
    }
}

/// What the Rust gives instead of lines.
pub struct Fault {
    /// An error's words, or a panic's.
    pub message: String,
    /// 5, 6 or 8 to 19; none where document 01 has no number for it.
    pub refusal: Option<u8>,
}

/// Asks the Rust for something.
pub fn run<T>(ask: impl FnOnce() -> Result<T, String>) -> Result<T, Fault> {
    match quietly(ask) {
        Ok(Ok(given)) => Ok(given),
        Ok(Err(message)) => Err(Fault { refusal: refusal_of_error(&message), message: format!("error: {message}") }),
        Err(message) => Err(Fault { refusal: refusal_of_panic(&message), message: format!("panic: {message}") }),
    }
}

/// The module that the book stands for: its structs, and a body for every name that is defined.
pub fn module(book: &Book) -> Module {
    let mut module = Module::default();
    for (name, body) in &book.structs {
        module.struct_types.insert(name.clone(), body.clone());
    }
    module.functions.extend(book.functions.iter().map(|function| stub(&function.name)));
    for (mark, name) in &book.marks {
        if *mark == Mark::Defined {
            module.functions.push(stub(name));
        }
    }
    module
}

fn stub(name: &str) -> Function {
    let block = BasicBlock { label: String::new(), insts: vec![], term: Terminator::Unreachable };
    Function {
        name: name.to_string(),
        ret_ty: Type::Void,
        params: vec![],
        varargs: false,
        linkage: Linkage::External,
        blocks: vec![block],
    }
}

/// How the errors of `gen_function` begin, and their numbers in document 01.
const ERRORS: &[(&str, u8)] = &[
    ("alloca without result", 5),
    ("cmpxchg without result", 5),
    ("phi without result name", 5),
    ("value-producing instruction has no result name", 5),
    ("function ", 8),
    ("expected an integer/pointer type, got ", 9),
    ("undefined value %", 10),
    ("load of non-scalar type ", 11),
    ("store of non-scalar type ", 11),
    ("atomic operations are only supported on 64-bit types", 12),
    ("unsupported sign extension ", 13),
    ("cannot index into non-aggregate type ", 14),
    ("expected a constant integer index", 14),
    ("struct getelementptr field index out of range", 14),
    ("call with ", 15),
    ("call to undefined function @", 15),
    ("unsupported call target: ", 15),
    ("extractvalue is only supported", 16),
    ("extractvalue references unknown value %", 16),
    ("extractvalue index ", 16),
    ("branch to unknown block %", 17),
    ("phi %", 18),
    ("conditional br missing false target", 19),
];

/// How the panics of layout.rs begin.
const PANICS: &[&str] =
    &["type has no storage size: ", "type has no alignment: ", "opaque struct %", "undefined struct type %"];

fn refusal_of_error(message: &str) -> Option<u8> {
    ERRORS.iter().find(|(start, _)| message.starts_with(start)).map(|(_, number)| *number)
}

fn refusal_of_panic(message: &str) -> Option<u8> {
    PANICS.iter().any(|start| message.starts_with(start)).then_some(6)
}

thread_local! {
    static QUIET: Cell<bool> = const { Cell::new(false) };
}

/// Panics inside `quietly` print nothing. Call once, before the first answer.
pub fn install_hook() {
    let usual = panic::take_hook();
    panic::set_hook(Box::new(move |info| {
        if !QUIET.get() {
            usual(info);
        }
    }));
}

/// The result, or the panic's message.
fn quietly<T>(run: impl FnOnce() -> T) -> Result<T, String> {
    QUIET.set(true);
    let result = panic::catch_unwind(AssertUnwindSafe(run));
    QUIET.set(false);
    result.map_err(|payload| message_of(payload.as_ref()))
}

fn message_of(payload: &(dyn Any + Send)) -> String {
    if let Some(message) = payload.downcast_ref::<String>() {
        message.clone()
    } else if let Some(message) = payload.downcast_ref::<&str>() {
        message.to_string()
    } else {
        "a panic without message".to_string()
    }
}
