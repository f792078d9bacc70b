//! The stack machine of document 01, "The two runs", on the published Rust's lines.
use self::lines::{read, Line, Two, When};
use super::world::{Call, Input, Memory, Target};
use std::collections::{BTreeMap, BTreeSet};

mod lines;

/// Lines of one function or of several, with the places of their labels.
#[derive(Default)]
pub struct Code {
    lines: Vec<Line>,
    /// The first line of each label as it is printed. A block's label has the name of the function whose comment stands before it.
    labels: BTreeMap<String, usize>,
    /// A label that a second line has too.
    twice: Option<String>,
    /// Those of the labels that are blocks.
    blocks: BTreeSet<String>,
    /// The book's names as they are printed.
    symbols: BTreeMap<String, String>,
}

impl Code {
    /// `blocks` are the printed labels of the blocks, `symbols` the names by their printed form.
    pub fn new(lines: &[String], blocks: BTreeSet<String>, symbols: BTreeMap<String, String>) -> Result<Code, String> {
        let mut code = Code { lines: vec![], labels: BTreeMap::new(), twice: None, blocks, symbols };
        for (place, text) in lines.iter().enumerate() {
            let line = read(text).ok_or_else(|| format!("no line: {text:?}"))?;
            if let Line::Label(label) = &line {
                match code.labels.get(label) {
                    Some(_) => code.twice = Some(label.clone()),
                    None => {
                        code.labels.insert(label.clone(), place);
                    }
                }
            }
            code.lines.push(line);
        }
        Ok(code)
    }

    pub fn length(&self) -> usize {
        self.lines.len()
    }

    /// The naming conditions have no label twice.
    pub fn label_twice(&self) -> Option<&str> {
        self.twice.as_deref()
    }

    /// The label of the block that begins at this line.
    fn block_at(&self, place: usize) -> Option<&str> {
        match self.lines.get(place) {
            Some(Line::Label(label)) if self.blocks.contains(label) => Some(label),
            _ => None,
        }
    }
}

/// Where the machine comes to.
#[derive(Clone, PartialEq, Eq, Debug)]
pub enum Comes {
    /// To the line of this block's label.
    At(String),
    Gave(u64),
    Failed(&'static str),
}

pub struct Machine<'a> {
    code: &'a Code,
    input: &'a Input,
    place: usize,
    pub slots: Vec<u64>,
    pub operands: Vec<u64>,
    pub memory: Memory,
    pub calls: Vec<Call>,
    pub sp: u64,
    pub passed: usize,
    pub steps: u64,
}

/// Why a line is the last one.
enum End {
    Gave(u64),
    Failed(&'static str),
}

/// Between two block labels there is no loop.
const MOST_STEPS: u64 = 100_000;

impl<'a> Machine<'a> {
    /// At this line.
    pub fn begin(code: &'a Code, place: usize, input: &'a Input) -> Machine<'a> {
        Machine {
            code,
            input,
            place,
            slots: vec![],
            operands: vec![],
            memory: input.memory.clone(),
            calls: vec![],
            sp: input.sp,
            passed: 0,
            steps: 0,
        }
    }

    /// Runs from where it stands, past a block label it stands at, to the next block label or the end.
    pub fn go(&mut self) -> Comes {
        let begun = self.steps;
        while self.steps < begun + MOST_STEPS {
            if let (Some(label), true) = (self.code.block_at(self.place), self.steps > begun || self.steps == 0) {
                return Comes::At(label.to_string());
            }
            match self.step() {
                Ok(()) => self.steps += 1,
                Err(End::Gave(value)) => {
                    self.steps += 1;
                    return Comes::Gave(value);
                }
                Err(End::Failed(reason)) => return Comes::Failed(reason),
            }
        }
        Comes::Failed("no block label in sight")
    }

    /// Whether this machine and one on other lines have done the same.
    pub fn stands_like(&self, other: &Machine) -> bool {
        let (slots, operands) = (self.slots == other.slots, self.operands == other.operands);
        let outside = self.memory == other.memory && self.calls == other.calls && self.sp == other.sp;
        slots && operands && outside && [self.passed as u64, self.steps] == [other.passed as u64, other.steps]
    }

    fn pop(&mut self) -> Result<u64, End> {
        self.operands.pop().ok_or(End::Failed("no operand"))
    }

    /// The cells of a call, the one pushed first first.
    fn pop_args(&mut self, count: usize) -> Result<Vec<u64>, End> {
        let kept = self.operands.len().checked_sub(count).ok_or(End::Failed("no operand"))?;
        Ok(self.operands.split_off(kept))
    }

    fn step(&mut self) -> Result<(), End> {
        let line = self.code.lines.get(self.place).ok_or(End::Failed("behind the last line"))?;
        if self.code.block_at(self.place).is_some() {
            self.passed += 1;
        }
        self.place += 1;
        match line {
            Line::Nothing | Line::Label(_) => {}
            Line::Jump(when, label) => self.jump(*when, label)?,
            Line::Slots(count) => self.slots.resize(self.slots.len() + count, 0),
            Line::Push(number) => self.operands.push(*number),
            Line::PushName(printed) => {
                let name = self.code.symbols.get(printed).ok_or(End::Failed("no such name"))?;
                self.operands.push(self.input.globals.get(name).copied().unwrap_or(0));
            }
            Line::GetArg(place) => self.operands.push(*self.input.args.get(*place).ok_or(End::Failed("no argument"))?),
            Line::GetLocal(slot) => self.operands.push(*self.slots.get(*slot).ok_or(End::Failed("no slot"))?),
            Line::SetLocal(slot) => {
                let cell = self.pop()?;
                *self.slots.get_mut(*slot).ok_or(End::Failed("no slot"))? = cell;
            }
            Line::Ret => return Err(End::Gave(self.pop()?)),
            Line::Panic => return Err(End::Failed("panic")),
            Line::Call { .. } | Line::CallPointer(_) | Line::Syscall(_) => self.call(line)?,
            _ => self.work(line)?,
        }
        Ok(())
    }

    fn jump(&mut self, when: When, label: &str) -> Result<(), End> {
        let taken = match when {
            When::Always => true,
            When::Zero => self.pop()? == 0,
            When::NotZero => self.pop()? != 0,
        };
        if taken {
            self.place = *self.code.labels.get(label).ok_or(End::Failed("no such label"))?;
        }
        Ok(())
    }

    /// Lines that work on operands, memory and the stack pointer.
    fn work(&mut self, line: &Line) -> Result<(), End> {
        match line {
            Line::Two { op, signed, width } => {
                let (b, a) = (self.pop()?, self.pop()?);
                self.operands.push(two(*op, *signed, *width, a, b)?);
            }
            Line::Trunc(width) => {
                let cell = self.pop()?;
                self.operands.push(cut(cell, *width));
            }
            Line::Extend { from, to } => {
                let cell = self.pop()?;
                self.operands.push(cut(sign(cell, *from) as u64, *to));
            }
            Line::Load(bytes) => {
                let address = self.pop()?;
                self.operands.push(self.memory.read(address, *bytes));
            }
            Line::Store(bytes) => {
                let (cell, address) = (self.pop()?, self.pop()?);
                self.memory.write(address, *bytes, cell);
            }
            Line::Swap => {
                let (new, compared, address) = (self.pop()?, self.pop()?, self.pop()?);
                let found = self.memory.read(address, 8);
                if found == compared {
                    self.memory.write(address, 8, new);
                }
                self.operands.push(found);
            }
            Line::Dup => {
                let cell = *self.operands.last().ok_or(End::Failed("no operand"))?;
                self.operands.push(cell);
            }
            Line::Pop => {
                self.pop()?;
            }
            Line::GetStack => self.operands.push(self.sp),
            Line::SetStack => self.sp = self.pop()?,
            _ => return Err(End::Failed("no such line")),
        }
        Ok(())
    }

    fn call(&mut self, line: &Line) -> Result<(), End> {
        let (target, args, replies) = match line {
            Line::Call { name, args } => {
                let name = self.code.symbols.get(name).ok_or(End::Failed("no such name"))?;
                (Target::Function(name.clone()), *args, true)
            }
            Line::CallPointer(args) => (Target::Address(self.pop()?), *args, true),
            Line::Syscall(name) => {
                let shape = self.input.shape(name).ok_or(End::Failed("a syscall without shape"))?;
                (Target::Syscall(name.clone()), shape.args, shape.replies)
            }
            _ => return Err(End::Failed("no call")),
        };
        let args = self.pop_args(args)?;
        let (cell, memory) = self.input.reply(self.calls.len());
        self.memory = memory.clone();
        self.calls.push(Call { target, args });
        if replies {
            self.operands.push(cell);
        }
        Ok(())
    }
}

/// The low bits.
fn cut(cell: u64, width: u32) -> u64 {
    if width == 64 { cell } else { cell & ((1 << width) - 1) }
}

/// The low bits as a signed number.
fn sign(cell: u64, width: u32) -> i64 {
    let unused = 64 - width;
    ((cell << unused) as i64) >> unused
}

/// What an operation of 32 or 64 bits gives; the lines of 32 take the low halves and leave a result below 2^32.
fn two(op: Two, signed: bool, width: u32, a: u64, b: u64) -> Result<u64, End> {
    let (a, b) = (cut(a, width), cut(b, width));
    let (sa, sb) = (sign(a, width), sign(b, width));
    let order = if signed { sa.cmp(&sb) } else { a.cmp(&b) };
    if matches!(op, Two::Div | Two::Mod) {
        let least = if width == 64 { i64::MIN } else { i32::MIN as i64 };
        if b == 0 || signed && sa == least && sb == -1 {
            return Err(End::Failed("division"));
        }
    }
    if matches!(op, Two::ShiftLeft | Two::ShiftRight) && b >= width as u64 {
        return Err(End::Failed("shift"));
    }
    let result = match op {
        Two::Add => a.wrapping_add(b),
        Two::Sub => a.wrapping_sub(b),
        Two::Mul => a.wrapping_mul(b),
        Two::Div if signed => (sa / sb) as u64,
        Two::Div => a / b,
        Two::Mod if signed => (sa % sb) as u64,
        Two::Mod => a % b,
        Two::And => a & b,
        Two::Or => a | b,
        Two::Xor => a ^ b,
        Two::ShiftLeft => a << b,
        Two::ShiftRight if signed => (sa >> b) as u64,
        Two::ShiftRight => a >> b,
        Two::Eq => order.is_eq() as u64,
        Two::Ne => order.is_ne() as u64,
        Two::Gt => order.is_gt() as u64,
        Two::Ge => order.is_ge() as u64,
        Two::Lt => order.is_lt() as u64,
        Two::Le => order.is_le() as u64,
    };
    Ok(cut(result, width))
}
