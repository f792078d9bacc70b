//! A small stack machine on printed lines, by docs/LINES.md, so that lines can be tried. Where a line fails, it panics.
use std::collections::HashMap;

pub struct Machine<'t> {
    lines: Vec<&'t str>,
    /// The line of each label.
    labels: HashMap<&'t str, usize>,
    /// An address is a place in it. Frames begin in the middle.
    pub memory: Vec<u8>,
    stack_pointer: u64,
}

const MEMORY: usize = 65_536;

impl<'t> Machine<'t> {
    pub fn new(text: &'t str) -> Self {
        let lines: Vec<&str> = text.lines().collect();
        let labels = lines.iter().enumerate().filter_map(|(place, line)| Some((line.strip_suffix(':')?, place))).collect();
        Machine { lines, labels, memory: vec![0; MEMORY], stack_pointer: MEMORY as u64 / 2 }
    }

    /// The reply of a function.
    pub fn call(&mut self, function: &str, args: &[u64]) -> u64 {
        let entry = self.stack_pointer;
        let (mut operands, mut slots) = (Vec::new(), Vec::new());
        let mut place = self.labels[function];
        loop {
            let line = self.lines[place];
            place += 1;
            let Some(line) = line.strip_suffix(';') else { continue };
            let (word, operand) = line.split_once(' ').unwrap_or((line, ""));
            let number = || operand.parse::<u64>().unwrap_or_else(|_| panic!("{line}"));
            let mut pop = || operands.pop().unwrap_or_else(|| panic!("{line}: no operand"));
            let pushed = match word {
                "push" => number(),
                "get_arg" => args[number() as usize],
                "get_local" => slots[number() as usize],
                "thread_get" => self.stack_pointer,
                "call" => {
                    let (callee, count) = operand.split_once(", ").expect("a call's arguments");
                    let first = operands.len() - count.parse::<usize>().expect("a number");
                    let args = operands.split_off(first);
                    self.call(callee, &args)
                }
                "syscall" => {
                    assert_eq!(operand, "memcmp");
                    let (count, b, a) = (pop(), pop(), pop());
                    self.bytes(a, count).cmp(self.bytes(b, count)) as i32 as u32 as u64
                }
                "dup" => *operands.last().expect("an operand"),
                "push_0n" => {
                    slots.resize(slots.len() + number() as usize, 0);
                    continue;
                }
                "set_local" => {
                    slots[number() as usize] = pop();
                    continue;
                }
                "thread_set" => {
                    self.stack_pointer = pop();
                    continue;
                }
                "pop" => {
                    pop();
                    continue;
                }
                "jmp" | "jz" | "jnz" => {
                    if word == "jmp" || (pop() == 0) == (word == "jz") {
                        place = self.labels[operand];
                    }
                    continue;
                }
                "store_u8" | "store_u16" | "store_u32" | "store_u64" => {
                    let (value, to) = (pop(), pop() as usize);
                    let size = bits(word) as usize / 8;
                    self.memory[to..to + size].copy_from_slice(&value.to_le_bytes()[..size]);
                    continue;
                }
                "load_u8" | "load_u16" | "load_u32" | "load_u64" => {
                    let bytes = self.bytes(pop(), bits(word) / 8);
                    bytes.iter().rev().fold(0, |value, &byte| value << 8 | u64::from(byte))
                }
                "trunc_u8" | "trunc_u16" | "trunc_u32" => cut(pop(), bits(word)),
                "sx_i8_i32" | "sx_i8_i64" => cut(pop() as i8 as u64, bits(word)),
                "sx_i16_i32" | "sx_i16_i64" => cut(pop() as i16 as u64, bits(word)),
                "sx_i32_i64" => pop() as i32 as u64,
                "ret" => {
                    let value = pop();
                    assert!(operands.is_empty() && self.stack_pointer == entry, "{function} leaves something behind");
                    return value;
                }
                _ => {
                    let (b, a) = (pop(), pop());
                    operation(word, a, b)
                }
            };
            operands.push(pushed);
        }
    }

    fn bytes(&self, from: u64, count: u64) -> &[u8] {
        &self.memory[from as usize..][..count as usize]
    }
}

/// The number at the end of a word: `add_u32` has 32.
fn bits(word: &str) -> u64 {
    let digits = word.trim_start_matches(|letter: char| !letter.is_ascii_digit());
    digits.rsplit(['i', 'u']).next().and_then(|digits| digits.parse().ok()).unwrap_or_else(|| panic!("{word}"))
}

fn cut(value: u64, bits: u64) -> u64 {
    value & (u64::MAX >> (64 - bits))
}

/// What an operation of two operands leaves.
fn operation(word: &str, a: u64, b: u64) -> u64 {
    let bits = bits(word);
    let (name, kind) = word.rsplit_once('_').expect("an operation and its width");
    let signed = kind.starts_with('i');
    let (a, b) = (cut(a, bits), cut(b, bits));
    let with_sign = |value: u64| if bits == 32 { i64::from(value as i32) } else { value as i64 };
    let order = if signed { with_sign(a).cmp(&with_sign(b)) } else { a.cmp(&b) };
    assert!(!name.ends_with("shift") || b < bits, "{word} by {b}");
    let result = match name {
        "add" => a.wrapping_add(b),
        "sub" => a.wrapping_sub(b),
        "mul" => a.wrapping_mul(b),
        "div" if signed => (with_sign(a) / with_sign(b)) as u64,
        "div" => a / b,
        "mod" if signed => (with_sign(a) % with_sign(b)) as u64,
        "mod" => a % b,
        "and" => a & b,
        "or" => a | b,
        "xor" => a ^ b,
        "lshift" => a << b,
        "rshift" if signed => (with_sign(a) >> b) as u64,
        "rshift" => a >> b,
        "eq" => u64::from(order.is_eq()),
        "ne" => u64::from(order.is_ne()),
        "gt" => u64::from(order.is_gt()),
        "ge" => u64::from(order.is_ge()),
        "lt" => u64::from(order.is_lt()),
        "le" => u64::from(order.is_le()),
        _ => panic!("{word}: no line of docs/LINES.md"),
    };
    cut(result, bits)
}
