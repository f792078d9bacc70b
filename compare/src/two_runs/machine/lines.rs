//! The published Rust's lines, read from their text as docs/LINES.md lists them.

#[derive(Clone, Copy, PartialEq, Eq, Debug)]
pub enum When {
    Always,
    Zero,
    NotZero,
}

/// Operations on two cells by the name in front of `_u32` and the like.
#[derive(Clone, Copy, PartialEq, Eq, Debug)]
pub enum Two {
    Add,
    Sub,
    Mul,
    Div,
    Mod,
    And,
    Or,
    Xor,
    ShiftLeft,
    ShiftRight,
    Eq,
    Ne,
    Gt,
    Ge,
    Lt,
    Le,
}

#[derive(Clone, PartialEq, Eq, Debug)]
pub enum Line {
    /// A comment or the empty line.
    Nothing,
    Label(String),
    Jump(When, String),
    Slots(usize),
    Push(u64),
    PushName(String),
    GetArg(usize),
    GetLocal(usize),
    SetLocal(usize),
    Two { op: Two, signed: bool, width: u32 },
    Trunc(u32),
    Extend { from: u32, to: u32 },
    Load(u64),
    Store(u64),
    Swap,
    Call { name: String, args: usize },
    CallPointer(usize),
    Syscall(String),
    Dup,
    Pop,
    Ret,
    Panic,
    GetStack,
    SetStack,
}

/// None where the text is no line that a function has.
pub fn read(text: &str) -> Option<Line> {
    if text.is_empty() || text.starts_with('#') {
        return Some(Line::Nothing);
    }
    if let Some(label) = text.strip_suffix(':') {
        return Some(Line::Label(label.to_string()));
    }
    let text = text.strip_suffix(';')?;
    // A syscall's name may have any character.
    if let Some(name) = text.strip_prefix("syscall ") {
        return Some(Line::Syscall(name.to_string()));
    }
    match text.split_once(' ') {
        Some((word, operand)) => with_operand(word, operand),
        None => plain(text),
    }
}

fn with_operand(word: &str, operand: &str) -> Option<Line> {
    Some(match word {
        "jmp" => Line::Jump(When::Always, operand.to_string()),
        "jz" => Line::Jump(When::Zero, operand.to_string()),
        "jnz" => Line::Jump(When::NotZero, operand.to_string()),
        "push_0n" => Line::Slots(operand.parse().ok()?),
        "push" => match operand.parse() {
            Ok(number) => Line::Push(number),
            Err(_) => Line::PushName(operand.to_string()),
        },
        "get_arg" => Line::GetArg(operand.parse().ok()?),
        "get_local" => Line::GetLocal(operand.parse().ok()?),
        "set_local" => Line::SetLocal(operand.parse().ok()?),
        "call" => {
            let (name, args) = operand.split_once(", ")?;
            Line::Call { name: name.to_string(), args: args.parse().ok()? }
        }
        "call_fp" => Line::CallPointer(operand.parse().ok()?),
        "thread_get" if operand == "0" => Line::GetStack,
        "thread_set" if operand == "0" => Line::SetStack,
        _ => return None,
    })
}

fn plain(text: &str) -> Option<Line> {
    Some(match text {
        "dup" => Line::Dup,
        "pop" => Line::Pop,
        "ret" => Line::Ret,
        "panic" => Line::Panic,
        "atomic_load_u64" => Line::Load(8),
        "atomic_store_u64" => Line::Store(8),
        "atomic_cas_u64" => Line::Swap,
        _ => return sized(text),
    })
}

/// A name, `_`, and widths.
fn sized(text: &str) -> Option<Line> {
    let parts: Vec<&str> = text.split('_').collect();
    match parts[..] {
        ["sx", from, to] => Some(Line::Extend { from: width(from, "i")?, to: width(to, "i")? }),
        ["trunc", to] => Some(Line::Trunc(width(to, "u")?)),
        ["load", bits] => Some(Line::Load(width(bits, "u")? as u64 / 8)),
        ["store", bits] => Some(Line::Store(width(bits, "u")? as u64 / 8)),
        [name, bits] => {
            let signed = bits.starts_with('i');
            let width = width(bits, if signed { "i" } else { "u" })?;
            if width < 32 { None } else { Some(Line::Two { op: two(name)?, signed, width }) }
        }
        _ => None,
    }
}

fn width(text: &str, sign: &str) -> Option<u32> {
    let width = text.strip_prefix(sign)?.parse().ok()?;
    [8, 16, 32, 64].contains(&width).then_some(width)
}

fn two(name: &str) -> Option<Two> {
    Some(match name {
        "add" => Two::Add,
        "sub" => Two::Sub,
        "mul" => Two::Mul,
        "div" => Two::Div,
        "mod" => Two::Mod,
        "and" => Two::And,
        "or" => Two::Or,
        "xor" => Two::Xor,
        "lshift" => Two::ShiftLeft,
        "rshift" => Two::ShiftRight,
        "eq" => Two::Eq,
        "ne" => Two::Ne,
        "gt" => Two::Gt,
        "ge" => Two::Ge,
        "lt" => Two::Lt,
        "le" => Two::Le,
        _ => return None,
    })
}
