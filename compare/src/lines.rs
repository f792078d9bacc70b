//! Lines as docs/LINES.md numbers them: what each prints, and the kind and operand that a printed line stands for.
use crate::book::{Book, Lent, Type};
use crate::check;
use crate::hash::Map;
use crate::oracle::{self, Accepted, Answer};
use std::fmt::Write;

const BINARY: [&str; 23] = [
    "add_u", "sub_u", "mul_u", "div_u", "div_i", "mod_u", "mod_i", "and_u", "or_u", "xor_u", "lshift_u", "rshift_u",
    "rshift_i", "eq_u", "ne_u", "gt_u", "ge_u", "lt_u", "le_u", "gt_i", "ge_i", "lt_i", "le_i",
];

/// From kind 67 on.
const PLAIN: [&str; 26] = [
    "trunc_u8", "trunc_u16", "trunc_u32", "sx_i8_i32", "sx_i16_i32", "sx_i8_i64", "sx_i16_i64", "sx_i32_i64", "load_u8",
    "load_u16", "load_u32", "load_u64", "store_u8", "store_u16", "store_u32", "store_u64", "atomic_load_u64",
    "atomic_store_u64", "atomic_cas_u64", "syscall memcmp", "dup", "pop", "ret", "panic", "thread_get 0",
    "thread_set 0",
];

const HINTS: [&str; 4] = ["sel_false", "sel_done", "br_false", "sw_case"];
const JUMPS: [&str; 4] = ["jz", "jmp", "jz", "jnz"];

/// A name of a syscall starts so.
const SYSCALL: &str = "__uvm_";

fn sanitize(name: &str) -> String {
    name.chars().map(|c| if c.is_ascii_alphanumeric() { c } else { '_' }).collect()
}

fn type_text(ty: &Type) -> String {
    match ty {
        Type::Void => "void".to_string(),
        Type::Int(width) => format!("i{width}"),
        Type::Ptr => "ptr".to_string(),
        Type::Array { packed: false, len, elem } => format!("[{len} x {}]", type_text(elem)),
        Type::Array { packed: true, len, elem } => format!("<{len} x {}>", type_text(elem)),
        Type::Struct(_) => "struct".to_string(),
        Type::NamedStruct(name) => format!("%{name}"),
        Type::Func(_) => "fn".to_string(),
        Type::Label => "label".to_string(),
        Type::Metadata => "metadata".to_string(),
        Type::Float | Type::Double => panic!("a book has no floats"),
    }
}

/// What the lines of a book are printed with.
pub struct Printer<'a> {
    names: &'a [String],
    /// Each name as labels have it.
    printed: Vec<String>,
    /// The numbers of the functions' names, in order.
    functions: Vec<u64>,
    /// Line kind 0 of each function, by its name's number.
    comments: Map<u64, String>,
}

/// The number of the function that the last comment line names; none before the first one.
type Current = Option<u64>;

impl<'a> Printer<'a> {
    /// Of each function the name's number, return type and count of parameters.
    pub fn new<'t>(names: &'a [String], functions: impl Iterator<Item = (u64, &'t Type, usize)>) -> Printer<'a> {
        let printed = names.iter().map(|name| sanitize(name)).collect();
        let mut printer = Printer { names, printed, functions: vec![], comments: Map::default() };
        for (function, return_type, params) in functions {
            let comment = format!("# {} @{}({params} params)", type_text(return_type), names[function as usize]);
            printer.functions.push(function);
            printer.comments.insert(function, comment);
        }
        printer
    }

    pub fn of_book(book: &'a Book) -> Printer<'a> {
        let numbers = book.numbers();
        let functions = book.functions.iter().map(|function| (numbers[function.name.as_str()], &function.ret_ty, function.params.len()));
        Printer::new(&book.names, functions)
    }

    /// Prints one line; none where no line has this kind and operand. A comment names a function of the book; a block's label and a jump to it
    /// stand behind the name of the function that the last comment named.
    fn line(&self, out: &mut String, current: &mut Current, line: u16, x: u64) -> Option<()> {
        let name = |x: u64| self.printed.get(usize::try_from(x).ok()?).map(String::as_str);
        let hint = |line: u16| HINTS[(line as usize - 13) % 4];
        let own = |current: &Current| Some(self.printed[(*current)? as usize].as_str());
        match line {
            0 => {
                let comment = self.comments.get(&x)?;
                *current = Some(x);
                writeln!(out, "{comment}")
            }
            1 => writeln!(out, "{}:", name(x)?),
            2 => writeln!(out, "{}__{}:", own(current)?, name(x)?),
            3 => writeln!(out, "jmp {}__{};", own(current)?, name(x)?),
            4 => writeln!(out, "push {};", name(x)?),
            5 => writeln!(out, "call {}, {};", name(x / 256)?, x % 256),
            6 => writeln!(out, "syscall {};", self.names.get(usize::try_from(x).ok()?)?.strip_prefix(SYSCALL)?),
            7 if (1..=65_535).contains(&x) => writeln!(out, "push_0n {x};"),
            8 => writeln!(out, "push {x};"),
            9 => writeln!(out, "get_arg {x};"),
            10 if x <= 65_535 => writeln!(out, "get_local {x};"),
            11 if x <= 65_535 => writeln!(out, "set_local {x};"),
            12 if x <= 255 => writeln!(out, "call_fp {x};"),
            13..=16 => writeln!(out, "__{}_{x}:", hint(line)),
            17..=20 => writeln!(out, "{} __{}_{x};", JUMPS[line as usize - 17], hint(line)),
            21..=43 if x == 0 => writeln!(out, "{}32;", BINARY[line as usize - 21]),
            44..=66 if x == 0 => writeln!(out, "{}64;", BINARY[line as usize - 44]),
            67..=92 if x == 0 => writeln!(out, "{};", PLAIN[line as usize - 67]),
            93 if x == 0 => writeln!(out),
            _ => return None,
        }
        .expect("a string grows");
        Some(())
    }

    /// One line as codegen.rs makes it: a string by itself, each name cleaned where it stands. The lines are ones that the printer prints.
    fn string(&self, current: &mut Current, line: u16, x: u64) -> Option<String> {
        let name = |x: u64| self.names.get(usize::try_from(x).ok()?).map(|name| sanitize(name));
        let own = |current: &Current| name((*current)?);
        let hint = |line: u16| HINTS[(line as usize - 13) % 4];
        Some(match line {
            0 => {
                *current = Some(x);
                self.comments.get(&x)?.clone()
            }
            1 => format!("{}:", name(x)?),
            2 => format!("{}__{}:", own(current)?, name(x)?),
            3 => format!("jmp {}__{};", own(current)?, name(x)?),
            4 => format!("push {};", name(x)?),
            5 => format!("call {}, {};", name(x / 256)?, x % 256),
            6 => format!("syscall {};", self.names.get(usize::try_from(x).ok()?)?.strip_prefix(SYSCALL)?),
            7 => format!("push_0n {x};"),
            8 => format!("push {x};"),
            9 => format!("get_arg {x};"),
            10 => format!("get_local {x};"),
            11 => format!("set_local {x};"),
            12 => format!("call_fp {x};"),
            13..=16 => format!("__{}_{x}:", hint(line)),
            17..=20 => format!("{} __{}_{x};", JUMPS[line as usize - 17], hint(line)),
            21..=43 => format!("{}32;", BINARY[line as usize - 21]),
            44..=66 => format!("{}64;", BINARY[line as usize - 44]),
            67..=92 => format!("{};", PLAIN[line as usize - 67]),
            93 => String::new(),
            _ => return None,
        })
    }

    /// All lines so, in a list, as `gen_function` leaves them.
    pub fn strings(&self, kinds: &[u16], operands: &[u64]) -> Option<Vec<String>> {
        let mut current = None;
        kinds.iter().zip(operands).map(|(&line, &x)| self.string(&mut current, line, x)).collect()
    }

    /// All lines; none where one of them is no line.
    pub fn text(&self, kinds: &[u16], operands: &[u64]) -> Option<String> {
        let mut out = String::with_capacity(16 * kinds.len());
        let mut current = None;
        for (&line, &x) in kinds.iter().zip(operands) {
            self.line(&mut out, &mut current, line, x)?;
        }
        Some(out)
    }
}

// ---- reading back

/// Kinds and operands.
#[derive(Default, Clone, PartialEq, Eq, Debug)]
pub struct Lines {
    pub kinds: Vec<u16>,
    pub operands: Vec<u64>,
}

impl Lines {
    pub fn push(&mut self, kind: u16, operand: u64) {
        self.kinds.push(kind);
        self.operands.push(operand);
    }

    /// Where the lines of each function begin: at its comment.
    pub fn functions(&self) -> Vec<usize> {
        (0..self.kinds.len()).filter(|place| self.kinds[*place] == 0).collect()
    }
}

/// The kinds without operand by their text, filled once.
fn plain_kinds() -> &'static Map<String, u16> {
    static KINDS: std::sync::OnceLock<Map<String, u16>> = std::sync::OnceLock::new();
    KINDS.get_or_init(|| {
        let binary = BINARY.iter().enumerate();
        let narrow = binary.clone().map(|(place, text)| (format!("{text}32;"), 21 + place as u16));
        let wide = binary.map(|(place, text)| (format!("{text}64;"), 44 + place as u16));
        let others = PLAIN.iter().enumerate().map(|(place, text)| (format!("{text};"), 67 + place as u16));
        narrow.chain(wide).chain(others).chain([(String::new(), 93)]).collect()
    })
}

/// Why a line's text gives no kind and operand.
enum Unread {
    /// Several lines print so.
    Several,
    /// None does.
    None,
}

struct Reader<'a> {
    printed: Map<&'a str, u64>,
    /// Names of syscalls.
    syscalls: Map<&'a str, u64>,
    printer: &'a Printer<'a>,
}

/// Where a reader stands: the name of the function whose lines these are, as labels have it, and whether its own label comes next.
struct Place<'a> {
    function: u64,
    own: &'a str,
    opened: bool,
}

/// Stands in a map for a print that several names have.
const SEVERAL: u64 = u64::MAX;

impl<'a> Reader<'a> {
    fn new(printer: &'a Printer<'a>) -> Reader<'a> {
        let mut printed = Map::default();
        for (number, name) in printer.printed.iter().enumerate() {
            printed.entry(name.as_str()).and_modify(|other| *other = SEVERAL).or_insert(number as u64);
        }
        let names = printer.names.iter().enumerate();
        let syscalls = names.filter_map(|(number, name)| Some((name.strip_prefix(SYSCALL)?, number as u64))).collect();
        Reader { printed, syscalls, printer }
    }

    fn name(&self, text: &str) -> Result<u64, Unread> {
        match self.printed.get(text) {
            Some(&SEVERAL) => Err(Unread::Several),
            Some(&number) => Ok(number),
            None => Err(Unread::None),
        }
    }

    /// The name behind the function's in a block's label.
    fn block(&self, own: &str, label: &str) -> Result<u64, Unread> {
        let rest = label.strip_prefix(own).and_then(|rest| rest.strip_prefix("__")).ok_or(Unread::None)?;
        self.name(rest)
    }

    /// A block's name may stand behind any function's, so a numbered label is told from it by its digits alone.
    fn label(&self, own: &str, label: &str, first: u16, block: u16) -> Result<(u16, u64), Unread> {
        for (place, hint) in HINTS.iter().enumerate() {
            let number = label.strip_prefix("__").and_then(|rest| rest.strip_prefix(hint)).and_then(|rest| rest.strip_prefix('_'));
            if let Some(number) = number.and_then(digits) {
                return Ok((first + place as u16, number));
            }
        }
        Ok((block, self.block(own, label)?))
    }

    /// A line behind a function's comment.
    fn line(&self, place: &mut Place, text: &str) -> Result<(u16, u64), Unread> {
        if std::mem::take(&mut place.opened) {
            return Ok((1, place.function));
        }
        if let Some(label) = text.strip_suffix(':') {
            return self.label(place.own, label, 13, 2);
        }
        if let Some(kind) = plain_kinds().get(text) {
            let memcmp = text == "syscall memcmp;" && self.syscalls.contains_key("memcmp");
            return if memcmp { Err(Unread::Several) } else { Ok((*kind, 0)) };
        }
        let (word, rest) = text.strip_suffix(';').and_then(|text| text.split_once(' ')).ok_or(Unread::None)?;
        let number = |kind: u16| digits(rest).map(|x| (kind, x)).ok_or(Unread::None);
        match word {
            "jz" | "jmp" | "jnz" => self.label(place.own, rest, 17, 3),
            "push" => match (digits(rest), self.printed.get(rest)) {
                (Some(_), Some(_)) => Err(Unread::Several),
                (Some(x), None) => Ok((8, x)),
                _ => Ok((4, self.name(rest)?)),
            },
            "call" => {
                let (callee, count) = rest.split_once(", ").ok_or(Unread::None)?;
                Ok((5, self.name(callee)? * 256 + digits(count).ok_or(Unread::None)?))
            }
            "syscall" => self.syscalls.get(rest).map(|number| (6, *number)).ok_or(Unread::None),
            "push_0n" => number(7),
            "get_arg" => number(9),
            "get_local" => number(10),
            "set_local" => number(11),
            "call_fp" => number(12),
            _ => Err(Unread::None),
        }
    }

    /// The functions' lines come in order, each from its comment on; no other line begins with `#`.
    fn lines(&self, texts: &[String]) -> Result<Lines, Unread> {
        let mut lines = Lines { kinds: Vec::with_capacity(texts.len()), operands: Vec::with_capacity(texts.len()) };
        let mut functions = self.printer.functions.iter();
        let mut place = Place { function: 0, own: "", opened: false };
        for text in texts {
            if !text.starts_with('#') {
                let (kind, operand) = self.line(&mut place, text)?;
                lines.push(kind, operand);
                continue;
            }
            let function = *functions.next().ok_or(Unread::None)?;
            if self.printer.comments[&function] != *text {
                return Err(Unread::None);
            }
            place = Place { function, own: &self.printer.printed[function as usize], opened: true };
            lines.push(0, function);
        }
        if functions.next().is_some() { Err(Unread::None) } else { Ok(lines) }
    }
}

fn digits(text: &str) -> Option<u64> {
    text.as_bytes().first()?.is_ascii_digit().then(|| text.parse().ok())?
}

/// Other names for a book's, no two of which print alike, nor like a number: each of the same sort for the Rust as the one it
/// stands for, but for those that a book may not call.
fn other_names(names: &[String]) -> Vec<String> {
    let other = |(number, name): (usize, &String)| {
        if name == "bcmp" || name == "memcmp" {
            return name.clone();
        }
        let start = if name.starts_with(SYSCALL) { SYSCALL } else { "" };
        let end = if name.contains(".with.overflow.") { ".with.overflow." } else { "" };
        format!("{start}x{number}{end}")
    };
    names.iter().enumerate().map(other).collect()
}

/// The kinds and operands of the lines that the Rust gives for a book. Where several lines print alike (names that become
/// equal, a name of digits), the Rust is asked once more with names that don't. An error is never expected.
pub fn read(lent: &Lent, printer: &Printer, accepted: &Accepted) -> Result<Lines, String> {
    let reader = Reader::new(printer);
    match reader.lines(&accepted.lines) {
        Ok(lines) => return Ok(lines),
        Err(Unread::None) => return Err("a line of the Rust's is none of docs/LINES.md".to_string()),
        Err(Unread::Several) => {}
    }
    let book = check::read_with(&lent.slices.book, other_names(printer.names)).ok_or("the book is no book")?;
    let Answer::Accepted(again) = oracle::answer(&book, lent.counter) else {
        return Err("the Rust refuses the book with other names".to_string());
    };
    if again.lines.len() != accepted.lines.len() || again.next != accepted.next {
        return Err("the Rust gives other lines for other names".to_string());
    }
    let other = Printer::of_book(&book);
    let reader = Reader::new(&other);
    reader.lines(&again.lines).map_err(|_| "a line with other names can't be read".to_string())
}
