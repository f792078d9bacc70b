//! Random inputs of a run.
use super::agree::hold;
use super::program::Program;
use super::source::{width_of, Halt};
use super::source::values::low;
use super::world::{Input, Memory, Reply};
use crate::rng::Rng;
use std::collections::BTreeMap;

const REPLIES: usize = 10;

/// The input of this number for the function of a book. Its replies fit the widths of the calls that take them.
pub fn input(program: &Program, seed: u64, index: u64, number: u64, bound: usize) -> Input {
    let number = number.wrapping_add(100 * program.place as u64);
    let mut rng = Rng::new(seed ^ 0x696e_7075_7473, index.wrapping_mul(1000).wrapping_add(number));
    let sp = stack_pointer(&mut rng);
    let globals: BTreeMap<String, u64> =
        program.book.names.iter().enumerate().map(|(place, name)| (name.clone(), global(&mut rng, place))).collect();
    let places = [4096, sp, globals.values().next().copied().unwrap_or(0)];
    let args = program.function().params.iter().map(|param| {
        let width = width_of(&param.ty).unwrap_or(64);
        argument(&mut rng, width, &places)
    });
    let args = args.collect();
    let memory = memory(&mut rng, &places);
    let replies = (0..REPLIES).map(|_| reply(&mut rng, &memory, &places)).collect();
    let mut input = Input { args, memory, sp, globals, shapes: program.shapes.clone(), replies };
    while let Ok(Err(Halt::Unfit { position, width })) = hold(program, &input, bound).map(|held| held.end) {
        input.replies[position].cell = low(width, input.replies[position].cell as i128);
    }
    input
}

fn stack_pointer(rng: &mut Rng) -> u64 {
    match rng.below(10) {
        0 => 0,
        1..=2 => 0u64.wrapping_sub(rng.range(1, 64) as u64),
        3 => rng.next(),
        4..=5 => 65_536 + rng.below(64) as u64,
        _ => 65_536,
    }
}

fn global(rng: &mut Rng, place: usize) -> u64 {
    match rng.below(20) {
        0 => u64::MAX - rng.below(16) as u64,
        1 => rng.next(),
        _ => 8192 + 16 * place as u64,
    }
}

/// Any number of the width; at 64 often near an address that memory has bytes at.
fn argument(rng: &mut Rng, width: u32, places: &[u64]) -> u64 {
    let number = match rng.below(8) {
        _ if width == 64 && rng.chance(600) => rng.pick(places).wrapping_add(rng.below(8) as u64),
        0..=2 => rng.below(8) as u64,
        3..=4 => 0u64.wrapping_sub(rng.range(1, 9) as u64),
        5 => 1 << rng.below(width as usize),
        6 => (1u64 << (width - 1)).wrapping_sub(rng.below(2) as u64),
        _ => rng.next(),
    };
    low(width, number as i128)
}

fn memory(rng: &mut Rng, places: &[u64]) -> Memory {
    let rest = match rng.below(10) {
        0..=5 => 0,
        6..=7 => 1,
        _ => rng.below(256) as u8,
    };
    let mut memory = Memory::new(rest);
    for _ in 0..rng.range(3, 8) {
        change(rng, &mut memory, places);
    }
    memory
}

fn change(rng: &mut Rng, memory: &mut Memory, places: &[u64]) {
    let address = rng.pick(places).wrapping_add(rng.below(10) as u64);
    let byte = if rng.chance(400) { rng.below(3) as u8 } else { rng.below(256) as u8 };
    memory.set(address, byte);
}

/// A cell, and memory with a few bytes changed.
fn reply(rng: &mut Rng, before: &Memory, places: &[u64]) -> Reply {
    let cell = if rng.chance(400) { rng.below(5) as u64 } else { rng.next() };
    let mut memory = before.clone();
    for _ in 0..rng.range(1, 3) {
        change(rng, &mut memory, places);
    }
    Reply { cell, memory }
}
