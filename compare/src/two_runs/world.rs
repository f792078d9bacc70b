//! What both runs are given: arguments, memory, stack pointer, addresses of globals, shapes of syscalls and replies to calls.
use std::collections::BTreeMap;

/// 2^64 bytes: those stored, over one byte that stands everywhere else. Addresses wrap, numbers are little-endian.
#[derive(Clone, PartialEq, Eq, Debug)]
pub struct Memory {
    rest: u8,
    stored: BTreeMap<u64, u8>,
}

impl Memory {
    pub fn new(rest: u8) -> Memory {
        Memory { rest, stored: BTreeMap::new() }
    }

    pub fn rest(&self) -> u8 {
        self.rest
    }

    /// The bytes that differ from the rest, by address.
    pub fn stored(&self) -> impl Iterator<Item = (u64, u8)> + '_ {
        self.stored.iter().map(|(address, byte)| (*address, *byte))
    }

    pub fn byte(&self, address: u64) -> u8 {
        self.stored.get(&address).copied().unwrap_or(self.rest)
    }

    pub fn set(&mut self, address: u64, byte: u8) {
        if byte == self.rest {
            self.stored.remove(&address);
        } else {
            self.stored.insert(address, byte);
        }
    }

    pub fn read(&self, address: u64, bytes: u64) -> u64 {
        (0..bytes).fold(0, |number, place| number | (self.byte(address.wrapping_add(place)) as u64) << (8 * place))
    }

    pub fn write(&mut self, address: u64, bytes: u64, number: u64) {
        for place in 0..bytes {
            self.set(address.wrapping_add(place), (number >> (8 * place)) as u8);
        }
    }
}

/// How many arguments a syscall has, and whether it replies.
#[derive(Clone, Copy, PartialEq, Eq, Debug)]
pub struct Shape {
    pub args: usize,
    pub replies: bool,
}

#[derive(Clone, Debug)]
pub struct Reply {
    pub cell: u64,
    pub memory: Memory,
}

#[derive(Clone, Debug)]
pub struct Input {
    pub args: Vec<u64>,
    pub memory: Memory,
    pub sp: u64,
    /// The address of each name of the book.
    pub globals: BTreeMap<String, u64>,
    /// By printed name; memcmp's is fixed.
    pub shapes: BTreeMap<String, Shape>,
    /// By position among the calls.
    pub replies: Vec<Reply>,
}

impl Input {
    pub fn shape(&self, printed: &str) -> Option<Shape> {
        if printed == "memcmp" { Some(Shape { args: 3, replies: true }) } else { self.shapes.get(printed).copied() }
    }

    /// Behind the listed replies comes 0, with the memory of the beginning.
    pub fn reply(&self, position: usize) -> (u64, &Memory) {
        self.replies.get(position).map_or((0, &self.memory), |reply| (reply.cell, &reply.memory))
    }
}

#[derive(Clone, PartialEq, Eq, Debug)]
pub enum Target {
    /// A function by its name in the book.
    Function(String),
    /// A syscall by its printed name.
    Syscall(String),
    Address(u64),
}

#[derive(Clone, PartialEq, Eq, Debug)]
pub struct Call {
    pub target: Target,
    pub args: Vec<u64>,
}
