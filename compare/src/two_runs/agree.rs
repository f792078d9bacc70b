//! The two runs side by side: what demand 3 of document 01 says of them, at every block.
use super::machine::{Comes, Machine};
use super::program::Program;
use super::source::{Halt, Named, Source, Stand, Stop};
use super::world::{Call, Input, Memory};
use std::collections::{BTreeMap, BTreeSet};

/// The source run with so many blocks passed.
pub enum Seen {
    At { block: String, values: Vec<Option<Named>>, memory: Memory, sp: u64, calls: Vec<Call> },
    Gave { value: u64, memory: Memory, calls: Vec<Call> },
    Stopped(Stop),
}

/// Runs that agree.
pub struct Held {
    /// With 0, 1, 2 .. blocks passed; the last one has returned or stopped, or the bound is reached.
    pub seen: Vec<Seen>,
    /// The machine's steps to the first block label, from each to the next, and to the return.
    pub steps: Vec<u64>,
    /// What kept the source run from going on, if anything did.
    pub end: Result<(), Halt>,
    /// Calls made, those of the last block too.
    pub calls: usize,
    pub executed: Vec<u64>,
    pub met: BTreeMap<&'static str, u64>,
    pub touched: BTreeSet<u64>,
}

/// Runs both for at most so many blocks, the lines of the whole book and the function's own. An error is a difference.
pub fn hold(program: &Program, input: &Input, bound: usize) -> Result<Held, String> {
    let mut held = Held::default();
    let mut source = match Source::begin(program.function(), program.layout(), input) {
        Ok(source) => source,
        Err(halt) => {
            held.stop(halt);
            return Ok(held);
        }
    };
    let mut machine = Machine::begin(&program.code, program.begins, input);
    let mut alone = Machine::begin(&program.own_code, 0, input);
    for passed in 0..=bound {
        let begun = machine.steps;
        let comes = machine.go();
        held.steps.push(machine.steps - begun);
        if alone.go() != comes || !machine.stands_like(&alone) {
            return Err(format!("after {passed} blocks: the function's own lines come elsewhere than the lines of the whole book"));
        }
        same(program, &source, &machine, comes, passed).map_err(|what| format!("after {passed} blocks: {what}"))?;
        held.seen.push(see(program, &source));
        if passed == bound || matches!(source.stand, Stand::Gave(_)) {
            break;
        }
        if let Err(halt) = source.pass() {
            held.stop(halt);
            break;
        }
    }
    held.calls = source.calls.len();
    held.executed = source.executed;
    held.met = source.met;
    held.touched = source.touched;
    Ok(held)
}

impl Default for Held {
    fn default() -> Held {
        Held {
            seen: vec![],
            steps: vec![],
            end: Ok(()),
            calls: 0,
            executed: vec![],
            met: BTreeMap::new(),
            touched: BTreeSet::new(),
        }
    }
}

impl Held {
    fn stop(&mut self, halt: Halt) {
        self.end = Err(halt);
        if let Halt::Stop(stop) = halt {
            self.seen.push(Seen::Stopped(stop));
        }
    }

    /// Blocks passed without a stop.
    pub fn passed(&self) -> usize {
        self.steps.len().saturating_sub(1)
    }
}

fn see(program: &Program, source: &Source) -> Seen {
    let (memory, calls) = (source.memory.clone(), source.calls.clone());
    match &source.stand {
        Stand::Gave(value) => Seen::Gave { value: *value, memory, calls },
        Stand::At(block) => {
            let values = program.names().map(|name| source.env.get(name).cloned()).collect();
            Seen::At { block: block.clone(), values, memory, sp: source.sp, calls }
        }
    }
}

/// Whether the machine has come where the source is.
fn same(program: &Program, source: &Source, machine: &Machine, comes: Comes, passed: usize) -> Result<(), String> {
    let differ = |what: &str, ours: &dyn std::fmt::Debug, theirs: &dyn std::fmt::Debug| {
        Err(format!("{what}: {ours:?} by the source, {theirs:?} by the lines"))
    };
    let (expected, sp) = match &source.stand {
        Stand::At(block) => (Comes::At(program.printed_label(block)), source.sp),
        // The stack pointer found at entry is back.
        Stand::Gave(value) => (Comes::Gave(*value), source.input.sp),
    };
    if comes != expected {
        return differ("place", &expected, &comes);
    }
    if machine.sp != sp {
        return differ("stack pointer", &sp, &machine.sp);
    }
    if machine.memory != source.memory {
        return differ("memory", &source.memory, &machine.memory);
    }
    if machine.calls != source.calls {
        return differ("calls", &source.calls, &machine.calls);
    }
    if matches!(source.stand, Stand::Gave(_)) {
        return Ok(());
    }
    if !machine.operands.is_empty() || machine.passed != passed {
        return differ("operands and blocks passed", &(0, passed), &(machine.operands.len(), machine.passed));
    }
    for (name, named) in &source.env {
        let (ours, theirs) = (cells(named), held_cells(program, source, machine, name, named));
        if ours != theirs {
            return differ(name, &ours, &theirs);
        }
    }
    Ok(())
}

/// A value's number, or the two of a cmpxchg.
pub fn cells(named: &Named) -> Vec<Option<u64>> {
    match named {
        Named::One { value, .. } => vec![Some(*value)],
        Named::Two { found, success, .. } => vec![Some(*found), Some(*success as u64)],
    }
}

/// Its argument cell or slot, or both slots of a cmpxchg.
fn held_cells(program: &Program, source: &Source, machine: &Machine, name: &str, named: &Named) -> Vec<Option<u64>> {
    let slot = |further: usize| program.slot(name).and_then(|slot| machine.slots.get(slot + further)).copied();
    match (named, program.argument(name)) {
        (Named::One { .. }, Some(place)) => vec![source.input.args.get(place).copied()],
        (Named::One { .. }, None) => vec![slot(0)],
        (Named::Two { .. }, _) => vec![slot(0), slot(1)],
    }
}
